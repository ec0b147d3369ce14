-- What may be refused in a write block, which goes on after each refusal with nothing queued.
a: CREATE TABLE m (time BIGINT NOT NULL, dev BIGINT, v BIGINT)
a: SELECT create_hypertable('m', 'time', chunk_time_interval => 100)
a: CREATE MATERIALIZED VIEW c WITH (timescaledb.continuous, timescaledb.materialized_only = false) AS SELECT time_bucket(10, time) AS b, count(*) AS n, sum(v) AS s FROM m GROUP BY b WITH NO DATA
a: BEGIN
a: SELECT #
a: SELEC
a: INSERT INTO z VALUES (1)
a: INSERT INTO m (v, v, time) VALUES (1, 2, 3)
a: DELETE FROM m WHERE w = 1
a: SELECT drop_chunks('m', 4611686018427387904)
a: INSERT INTO m VALUES (9223372036854775808, 1, 1)
a: INSERT INTO m VALUES (1, 2)
a: INSERT INTO m VALUES (NULL, 1, 1)
a: DELETE FROM c
a: CALL refresh_continuous_aggregate('c', 0, 10)
a: CREATE TABLE n (time BIGINT)
a: REFRESH SNAP 3
a: BEGIN
a: COMMIT
