-- A cut is of the whole buckets within its window, and there must be one.
a: CREATE TABLE m (time BIGINT NOT NULL, dev BIGINT, v BIGINT)
a: SELECT create_hypertable('m', 'time', chunk_time_interval => 100)
a: CREATE MATERIALIZED VIEW c WITH (timescaledb.continuous, timescaledb.materialized_only = false) AS SELECT time_bucket(10, time) AS b, count(*) AS n, sum(v) AS s FROM m GROUP BY b WITH NO DATA
a: INSERT INTO m VALUES (15, 1, 1)
r: REFRESH CUT 'c', 3, 27
r: REFRESH CUT 'c', 3, 9
r: REFRESH CUT 'c', 20, 10
