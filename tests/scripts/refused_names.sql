a: CREATE TABLE plain (time BIGINT, v BIGINT)
a: CREATE TABLE m (time BIGINT NOT NULL, dev BIGINT NOT NULL, v BIGINT)
a: SELECT create_hypertable('m', 'time', chunk_time_interval => 100)
a: CREATE MATERIALIZED VIEW c WITH (timescaledb.continuous) AS SELECT time_bucket(10, time) AS b, count(*) AS n FROM m GROUP BY b WITH NO DATA
A: SELECT * FROM m
a: SELECT #
a: SELEC
a: CREATE TABLE x (time BIGINT, time BIGINT)
a: SELECT create_hypertable('m', 'time', chunk_time_interval => 100)
a: CREATE MATERIALIZED VIEW d WITH (timescaledb.continuous) AS SELECT time_bucket(10, time), sum(v), sum(dev) FROM m GROUP BY 1
a: DELETE FROM m WHERE w = 1
a: SELECT * FROM c WHERE b <> 10
a: SELECT drop_chunks('m', older_than => 4611686018427387904)
a: CALL refresh_continuous_aggregate('c', -9223372036854775808, NULL)
a: INSERT INTO m VALUES (NULL, 1, 1)
a: DELETE FROM c WHERE b = 0
a: SELECT * FROM plain
a: SELECT create_hypertable('plain', 'time', chunk_time_interval => 0)
a: SELECT time_bucket(0, time), count(*) FROM m GROUP BY 1
a: CREATE TABLE wide (c1 BIGINT, c2 BIGINT, c3 BIGINT, c4 BIGINT, c5 BIGINT, c6 BIGINT, c7 BIGINT, c8 BIGINT, c9 BIGINT, c10 BIGINT, c11 BIGINT, c12 BIGINT, c13 BIGINT, c14 BIGINT, c15 BIGINT, c16 BIGINT, c17 BIGINT)
a: SELECT * FROM m WHERE v = 9223372036854775808 ORDER BY v
a: CREATE MATERIALIZED VIEW d WITH (timescaledb.continuous) AS SELECT time_bucket(0, w), count(*) FROM z GROUP BY 1
a: CREATE TABLE IF NOT EXISTS m (time BIGINT)
a: \d
a: DROP MATERIALIZED VIEW c
