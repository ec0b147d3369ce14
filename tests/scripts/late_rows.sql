-- Late rows below the watermark are named as stale; rows above it are folded as they are.
a: CREATE TABLE m (time BIGINT NOT NULL, dev BIGINT, v BIGINT)
a: SELECT create_hypertable('m', 'time', chunk_time_interval => 100)
a: CREATE MATERIALIZED VIEW c WITH (timescaledb.continuous, timescaledb.materialized_only = false) AS SELECT time_bucket(10, time) AS b, count(*) AS n, sum(v) AS s FROM m GROUP BY b WITH NO DATA
a: INSERT INTO m VALUES (50, 1, 5), (120, 1, 7), (250, 1, 9)
a: CALL refresh_continuous_aggregate('c', 100, 200)
a: INSERT INTO m VALUES (121, 1, 1)
q: SELECT * FROM c
a: INSERT INTO m VALUES (150, 2, 4)
q: SELECT * FROM c
a: CALL refresh_continuous_aggregate('c', 200, 300)
q: SELECT * FROM c
