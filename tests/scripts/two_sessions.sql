-- Two sessions, of which one reads in a block while the other writes.
a: CREATE TABLE m (time BIGINT NOT NULL, dev BIGINT, v BIGINT)
a: SELECT create_hypertable('m', 'time', chunk_time_interval => 100)
a: CREATE MATERIALIZED VIEW c WITH (timescaledb.continuous, timescaledb.materialized_only = false) AS SELECT time_bucket(10, time) AS b, count(*) AS n, sum(v) AS s FROM m GROUP BY b WITH NO DATA
a: INSERT INTO m VALUES (12, 1, 5)
q: BEGIN READ ONLY
a: INSERT INTO m VALUES (3, 2, 7)
q: SELECT * FROM c
q: COMMIT
q: SELECT * FROM c
q: SELECT * FROM m
q: COMMIT
