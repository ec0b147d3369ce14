a: CREATE TABLE m (time BIGINT NOT NULL, dev BIGINT, v BIGINT)
a: SELECT create_hypertable('m', 'time', chunk_time_interval => 100)
a: CREATE MATERIALIZED VIEW c WITH (timescaledb.continuous, timescaledb.materialized_only = false) AS SELECT time_bucket(10, time) AS b, count(*) AS n, sum(v) AS s FROM m GROUP BY b WITH NO DATA
SELECT
é: SELECT * FROM m
a: SELECT #
a: SELEC
a: SELECT * FROM z
a: CREATE TABLE c (time BIGINT)
a: DELETE FROM m WHERE w = 1
a: INSERT INTO m VALUES (4611686018427387904, 1, 1)
a: INSERT INTO m VALUES (9223372036854775808, 1, 1)
a: INSERT INTO m VALUES (1, 2)
a: INSERT INTO m VALUES (NULL, 1, 1)
a: INSERT INTO c VALUES (1)
a: SELECT time_bucket(0, time) AS b, count(*) FROM m GROUP BY b
a: SELECT time_bucket(5, w) AS b, count(*) FROM m GROUP BY b
a: COMMIT
a: ROLLBACK
a: BEGIN READ ONLY
a: DELETE FROM m
