-- A refresh that finishes after one with a later snapshot puts nothing older in its place.
a: CREATE TABLE m (time BIGINT NOT NULL, dev BIGINT, v BIGINT)
a: SELECT create_hypertable('m', 'time', chunk_time_interval => 100)
a: CREATE MATERIALIZED VIEW c WITH (timescaledb.continuous, timescaledb.materialized_only = false) AS SELECT time_bucket(10, time) AS b, count(*) AS n, sum(v) AS s FROM m GROUP BY b WITH NO DATA
a: INSERT INTO m VALUES (120, 1, 7)
r: REFRESH CUT 'c', 100, 200
r: REFRESH SNAP
a: INSERT INTO m VALUES (121, 1, 1)
x: CALL refresh_continuous_aggregate('c', 100, 200)
r: REFRESH FINISH
q: SELECT * FROM c WHERE b >= 100
