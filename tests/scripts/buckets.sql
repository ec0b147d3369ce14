-- Which bucket a time falls into, of each width and offset; which widths there are; whole buckets of a window.
a: CREATE TABLE m (time BIGINT NOT NULL, v BIGINT)
a: SELECT create_hypertable('m', 'time', chunk_time_interval => 10)
a: INSERT INTO m (time) VALUES (-5), (-1), (0), (1), (2), (4)
a: SELECT time_bucket(5, time) AS b, count(*) FROM m GROUP BY b
a: SELECT time_bucket(5, time, 2) AS b, count(*) FROM m WHERE time >= 1 AND time <= 2 GROUP BY b
a: INSERT INTO m (time) VALUES (-4611686018427387904), (4611686018427387903)
a: SELECT time_bucket(1099511627776, time) AS b, count(*) FROM m GROUP BY b
a: SELECT time_bucket(1099511627776, time, 1099511627775) AS b, count(*) FROM m GROUP BY b
a: SELECT time_bucket(0, time) AS b, count(*) FROM m GROUP BY b
a: SELECT time_bucket(-5, time) AS b, count(*) FROM m GROUP BY b
a: SELECT time_bucket(5, time, 5) AS b, count(*) FROM m GROUP BY b
a: SELECT time_bucket(5, time, -1) AS b, count(*) FROM m GROUP BY b
a: SELECT time_bucket(1099511627777, time) AS b, count(*) FROM m GROUP BY b
a: INSERT INTO m (time) VALUES (4611686018427387904)
a: INSERT INTO m (time) VALUES (-4611686018427387905)
a: CREATE MATERIALIZED VIEW c WITH (timescaledb.continuous, timescaledb.materialized_only = false) AS SELECT time_bucket(10, time) AS b, count(*) AS n FROM m GROUP BY b WITH NO DATA
a: REFRESH CUT 'c', 3, 27
a: REFRESH CUT 'c', -20, 0
a: REFRESH CUT 'c', 3, 9
a: REFRESH CUT 'c', 20, 10
a: REFRESH CUT 'c', 10, 10
a: REFRESH CUT 'c', NULL, 27
