-- Each statement has its first refusal, by names and values from left to right; then those that none of these stop.
a: CREATE TABLE m (time BIGINT NOT NULL, dev BIGINT, v BIGINT)
a: SELECT create_hypertable('m', 'time', chunk_time_interval => 100)
a: CREATE TABLE p (k BIGINT)
a: CREATE MATERIALIZED VIEW c WITH (timescaledb.continuous, timescaledb.materialized_only = false) AS SELECT time_bucket(10, time) AS b, count(*) AS n FROM m GROUP BY b WITH NO DATA
a: CREATE TABLE c (time BIGINT)
a: CREATE TABLE t (a BIGINT, a BIGINT)
a: SELECT create_hypertable('z', 'k', chunk_time_interval => 5)
a: SELECT create_hypertable('c', 'k', chunk_time_interval => 5)
a: SELECT create_hypertable('m', 'w', chunk_time_interval => 0)
a: SELECT create_hypertable('p', 'w', chunk_time_interval => 0)
a: SELECT create_hypertable('p', 'k', chunk_time_interval => 0)
a: SELECT create_hypertable('p', 'k', chunk_time_interval => 1125899906842625)
a: ALTER MATERIALIZED VIEW m SET (timescaledb.materialized_only = true)
a: DELETE FROM z
a: DELETE FROM p
a: DELETE FROM m WHERE v = 1 AND w = 1
a: SELECT drop_chunks('c', 1)
a: SELECT drop_chunks('m', 4611686018427387904)
a: CALL refresh_continuous_aggregate('m', 1, 2)
a: CALL refresh_continuous_aggregate('c', 4611686018427387904, 2)
a: REFRESH CUT 'z', 1, 2
a: REFRESH CUT 'c', NULL, -4611686018427387905
a: SELECT * FROM z
a: SELECT * FROM p
a: SELECT * FROM c WHERE n = 1
a: SELECT * FROM c WHERE b <> 1
a: INSERT INTO p VALUES (1)
a: INSERT INTO c VALUES (1)
a: INSERT INTO m (time, time) VALUES (1, 1)
a: INSERT INTO m (time, w) VALUES (1, 1)
a: INSERT INTO m VALUES (NULL, 2)
a: INSERT INTO m (v, time) VALUES (1)
a: INSERT INTO m VALUES (NULL, 1, 1)
a: INSERT INTO m (v) VALUES (1)
a: INSERT INTO m VALUES (4611686018427387904, 1, 1)
a: INSERT INTO m VALUES (1, 1, 1), (-4611686018427387905, 1, 1)
a: SELECT time_bucket(0, w), count(*) FROM m GROUP BY 1
a: SELECT time_bucket(1099511627777, time), count(*) FROM m GROUP BY 1
a: SELECT time_bucket(5, w, 5), count(*) FROM m GROUP BY 1
a: SELECT time_bucket(5, v), count(*) FROM m GROUP BY 1
a: SELECT time_bucket(5, time, 5), count(*) FROM m GROUP BY 1
a: SELECT time_bucket(5, time, -1), count(*) FROM m GROUP BY 1
a: SELECT time_bucket(5, time), w, count(*) FROM m GROUP BY 1, 2
a: SELECT time_bucket(5, time), sum(w) FROM m GROUP BY 1
a: SELECT time_bucket(5, time), count(*) FROM m WHERE w = 1 GROUP BY 1
a: SELECT time_bucket(5, time), count(*) FROM c GROUP BY 1
a: CREATE MATERIALIZED VIEW m WITH (timescaledb.continuous) AS SELECT time_bucket(5, time), count(*) FROM z GROUP BY 1
a: CREATE MATERIALIZED VIEW a WITH (timescaledb.continuous) AS SELECT time_bucket(5, time), count(*) FROM z GROUP BY 1
a: CREATE MATERIALIZED VIEW a WITH (timescaledb.continuous) AS SELECT time_bucket(5, time), count(*), count(v) FROM m GROUP BY 1
a: CREATE MATERIALIZED VIEW a WITH (timescaledb.continuous) AS SELECT time_bucket(5, time) AS dev, dev, count(*) FROM m GROUP BY 1, 2
a: CREATE MATERIALIZED VIEW a WITH (timescaledb.continuous) AS SELECT time_bucket(5, time), sum(w), sum(v) AS sum FROM m GROUP BY 1
a: CREATE TABLE t (c0 BIGINT, c1 BIGINT, c2 BIGINT, c3 BIGINT, c4 BIGINT, c5 BIGINT, c6 BIGINT, c7 BIGINT, c8 BIGINT, c9 BIGINT, c10 BIGINT, c11 BIGINT, c12 BIGINT, c13 BIGINT, c14 BIGINT, c15 BIGINT, c16 BIGINT)
a: SELECT time_bucket(5, time), count(*), count(*), count(*), count(*), count(*), count(*), count(*), count(*), count(*), count(*), count(*), count(*), count(*), count(*), count(*), count(*) FROM m GROUP BY 1
a: CREATE TABLE t (a BIGINT, b BIGINT)
a: SELECT create_hypertable('p', 'k', chunk_time_interval => 1125899906842624)
a: DELETE FROM m WHERE v IS NULL
a: REFRESH CUT 'c', NULL, -4611686018427387904
a: REFRESH SNAP 8
a: REFRESH FINISH
a: BEGIN READ ONLY
a: COMMIT
a: ROLLBACK
a: select * from C where B >= 100;
a: INSERT INTO m (v, time) VALUES (7, 1), (NULL, 2)
a: INSERT INTO m VALUES (4611686018427387903, NULL, NULL)
a: SELECT time_bucket(5, time), count(*), count(v) FROM m GROUP BY 1
a: CREATE MATERIALIZED VIEW a WITH (timescaledb.continuous) AS SELECT time_bucket(5, time), count(*), count(v) AS x FROM m GROUP BY 1
a: SELECT time_bucket(5, time), count(*), count(*), count(*), count(*), count(*), count(*), count(*), count(*), count(*), count(*), count(*), count(*), count(*), count(*), count(*) FROM m GROUP BY 1
a: CREATE TABLE u (c0 BIGINT, c1 BIGINT, c2 BIGINT, c3 BIGINT, c4 BIGINT, c5 BIGINT, c6 BIGINT, c7 BIGINT, c8 BIGINT, c9 BIGINT, c10 BIGINT, c11 BIGINT, c12 BIGINT, c13 BIGINT, c14 BIGINT, c15 BIGINT)
a: ALTER MATERIALIZED VIEW c SET (timescaledb.materialized_only = true)
