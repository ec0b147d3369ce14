-- Readings by days, weeks, months and years, for times that are seconds since 1970 in UTC.
a: CREATE TABLE m (time BIGINT NOT NULL, dev BIGINT, v BIGINT)
a: SELECT create_hypertable('m', 'time', chunk_time_interval => 86400)

-- 1 and 29 February and 1 March 2000, and the last second of 1969.
a: INSERT INTO m VALUES (949363200, 1, 1), (951782400, 1, 2), (951868800, 2, 3), (-1, NULL, 4)
q: SELECT calendar_bucket(1, 'month', time) AS month, count(*), avg(v) FROM m GROUP BY month
q: SELECT calendar_bucket(3, 'month', time) AS quarter, sum(v) FROM m GROUP BY quarter
q: SELECT calendar_bucket(1, 'WEEK', time) AS week, dev, count(*) FROM m GROUP BY week, dev
q: SELECT calendar_bucket(1, 'year', time), sum(v) FROM m GROUP BY calendar_bucket
q: SELECT calendar_bucket(1, 'day', time) AS day, min(time), max(time) FROM m WHERE time > 949363200 GROUP BY day

-- In a read block, as the table was.
r: BEGIN READ ONLY
a: INSERT INTO m VALUES (951868801, 2, 5)
r: SELECT calendar_bucket(1, 'month', time) AS month, sum(v) FROM m WHERE dev = 2 GROUP BY month
r: COMMIT
r: SELECT calendar_bucket(1, 'month', time) AS month, sum(v) FROM m WHERE dev = 2 GROUP BY month

-- No unit, and no number of units.
q: SELECT calendar_bucket(1, 'hour', time), count(*) FROM m GROUP BY 1
q: SELECT calendar_bucket(1, 'months', time), count(*) FROM m GROUP BY 1
q: SELECT calendar_bucket(0, 'day', time), count(*) FROM m GROUP BY 1
q: SELECT calendar_bucket(1201, 'day', time), count(*) FROM m GROUP BY 1
q: SELECT calendar_bucket(1, 'day', v), count(*) FROM m GROUP BY 1
q: SELECT calendar_bucket(1, 'day', time), count(*) FROM z GROUP BY 1
