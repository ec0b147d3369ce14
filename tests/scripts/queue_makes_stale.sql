-- Rows that wait below the watermark make their buckets stale for their writer, and those above it are shown.
a: CREATE TABLE m (time BIGINT NOT NULL, dev BIGINT, v BIGINT)
a: SELECT create_hypertable('m', 'time', chunk_time_interval => 100)
a: CREATE MATERIALIZED VIEW c WITH (timescaledb.continuous, timescaledb.materialized_only = false) AS SELECT time_bucket(10, time) AS b, count(*) AS n, sum(v) AS s FROM m GROUP BY b WITH NO DATA
a: INSERT INTO m VALUES (120, 1, 7)
a: CALL refresh_continuous_aggregate('c', 100, 200)
w: BEGIN
w: INSERT INTO m VALUES (121, 1, 1)
w: INSERT INTO m VALUES (250, 1, 9)
w: SELECT * FROM c WHERE b >= 100
w: SELECT * FROM m
w: ROLLBACK
w: SELECT * FROM c WHERE b >= 100
