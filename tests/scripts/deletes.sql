-- Rows that are taken away, by tests and by whole chunks.
a: CREATE TABLE m (time BIGINT NOT NULL, dev BIGINT, v BIGINT)
a: SELECT create_hypertable('m', 'time', chunk_time_interval => 100)
a: CREATE MATERIALIZED VIEW c WITH (timescaledb.continuous, timescaledb.materialized_only = false) AS SELECT time_bucket(10, time) AS b, count(*) AS n, sum(v) AS s FROM m GROUP BY b WITH NO DATA
a: INSERT INTO m (v, time) VALUES (7, 1), (8, 2), (9, 250)
a: DELETE FROM m WHERE v = 7
a: SELECT drop_chunks('m', older_than => 250)
a: SELECT * FROM m WHERE v IS NOT NULL AND time > 0
