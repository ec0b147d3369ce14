-- Months, years and weeks of the greatest and the least time, and of a February of 2100, which has no 29th.
a: CREATE TABLE m (time BIGINT NOT NULL, v BIGINT)
a: SELECT create_hypertable('m', 'time', chunk_time_interval => 1125899906842624)
a: INSERT INTO m VALUES (4611686018427387903, 1), (-4611686018427387904, 1), (4107542399, 1), (4107542400, 1), (0, 1)
a: SELECT calendar_bucket(1, 'month', time), count(*) FROM m GROUP BY 1
a: SELECT calendar_bucket(3, 'month', time), count(*) FROM m WHERE time > 5000000000 GROUP BY 1
a: SELECT calendar_bucket(5, 'month', time), count(*) FROM m WHERE time < 0 GROUP BY 1
a: SELECT calendar_bucket(1, 'year', time), count(*) FROM m WHERE time < 0 GROUP BY 1
a: SELECT calendar_bucket(1, 'year', time), count(*) FROM m WHERE time > 5000000000 GROUP BY 1
a: SELECT calendar_bucket(1200, 'year', time), count(*) FROM m GROUP BY 1
a: SELECT calendar_bucket(1, 'week', time), count(*) FROM m WHERE time <> 4107542399 AND time <> 4107542400 AND time <> 0 GROUP BY 1
a: SELECT calendar_bucket(1200, 'week', time), count(*) FROM m WHERE time = 0 GROUP BY 1
