-- What was never refreshed below the watermark is stale; with materialised rows only the rest isn't shown.
a: CREATE TABLE m (time BIGINT NOT NULL, dev BIGINT, v BIGINT)
a: SELECT create_hypertable('m', 'time', chunk_time_interval => 100)
a: CREATE MATERIALIZED VIEW c WITH (timescaledb.continuous, timescaledb.materialized_only = false) AS SELECT time_bucket(10, time) AS b, count(*) AS n, sum(v) AS s FROM m GROUP BY b WITH NO DATA
a: INSERT INTO m VALUES (50, 1, 5), (120, 1, 7), (250, 1, 9)
a: CALL refresh_continuous_aggregate('c', 100, 200)
q: SELECT * FROM c
a: ALTER MATERIALIZED VIEW c SET (timescaledb.materialized_only = true)
q: SELECT * FROM c
