-- Sums past 64 bits, and averages in lowest terms.
a: CREATE TABLE m (time BIGINT NOT NULL, dev BIGINT, v BIGINT)
a: SELECT create_hypertable('m', 'time', chunk_time_interval => 100)
a: CREATE MATERIALIZED VIEW c WITH (timescaledb.continuous, timescaledb.materialized_only = false) AS SELECT time_bucket(10, time) AS b, count(*) AS n, sum(v) AS s FROM m GROUP BY b WITH NO DATA
a: INSERT INTO m VALUES (0, 1, 9223372036854775807), (1, 1, 9223372036854775807), (10, 1, 1), (11, 1, 2), (12, 1, 2)
a: SELECT time_bucket(10, time) AS b, sum(v), avg(v) FROM m GROUP BY 1
