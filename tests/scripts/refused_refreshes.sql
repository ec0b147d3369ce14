-- What may be refused of a refresh outside a block.
a: CREATE TABLE m (time BIGINT NOT NULL, dev BIGINT, v BIGINT)
a: SELECT create_hypertable('m', 'time', chunk_time_interval => 100)
a: CREATE MATERIALIZED VIEW c WITH (timescaledb.continuous, timescaledb.materialized_only = false) AS SELECT time_bucket(10, time) AS b, count(*) AS n, sum(v) AS s FROM m GROUP BY b WITH NO DATA
a: CALL refresh_continuous_aggregate('z', 1, 2)
a: CALL refresh_continuous_aggregate('m', 1, 2)
a: CALL refresh_continuous_aggregate('c', 4611686018427387904, NULL)
a: CALL refresh_continuous_aggregate('c', 3, 9)
a: REFRESH SNAP
a: REFRESH SNAP 3
a: REFRESH FINISH
a: REFRESH FINISH -1
a: ALTER MATERIALIZED VIEW m SET (timescaledb.materialized_only = true)
a: CREATE MATERIALIZED VIEW c WITH (timescaledb.continuous) AS SELECT time_bucket(10, time), count(*) FROM m GROUP BY 1
a: INSERT INTO m VALUES (1, 1, 1)
a: REFRESH CUT 'c', 0, 10
b: REFRESH FINISH 5
a: REFRESH FINISH
