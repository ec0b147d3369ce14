-- A read block answers from its snapshot while a refresh finishes.
a: CREATE TABLE m (time BIGINT NOT NULL, dev BIGINT, v BIGINT)
a: SELECT create_hypertable('m', 'time', chunk_time_interval => 100)
a: CREATE MATERIALIZED VIEW c WITH (timescaledb.continuous, timescaledb.materialized_only = false) AS SELECT time_bucket(10, time) AS b, count(*) AS n, sum(v) AS s FROM m GROUP BY b WITH NO DATA
a: INSERT INTO m VALUES (110, 1, 1), (190, 1, 2)
a: CALL refresh_continuous_aggregate('c', 100, 200)
a: INSERT INTO m VALUES (110, 1, 1), (190, 1, 2)
q: SELECT * FROM c WHERE b >= 100
q: BEGIN READ ONLY
q: SELECT * FROM c WHERE b >= 100
x: CALL refresh_continuous_aggregate('c', 100, 200)
q: SELECT * FROM c WHERE b >= 100
q: COMMIT
q: SELECT * FROM c WHERE b >= 100
