-- What dropped chunks held stays in the aggregate, named as stale, until it is refreshed.
a: CREATE TABLE m (time BIGINT NOT NULL, dev BIGINT, v BIGINT)
a: SELECT create_hypertable('m', 'time', chunk_time_interval => 100)
a: CREATE MATERIALIZED VIEW c WITH (timescaledb.continuous, timescaledb.materialized_only = false) AS SELECT time_bucket(10, time) AS b, count(*) AS n, sum(v) AS s FROM m GROUP BY b WITH NO DATA
a: INSERT INTO m VALUES (50, 1, 5), (150, 1, 6), (220, 1, 7)
a: CALL refresh_continuous_aggregate('c', NULL, NULL)
a: SELECT drop_chunks('m', older_than => 250)
q: SELECT * FROM c
a: SELECT drop_chunks('m', older_than => 250)
a: CALL refresh_continuous_aggregate('c', 0, 200)
q: SELECT * FROM c
