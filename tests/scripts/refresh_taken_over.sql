-- Nothing to refresh; a refresh that another session takes over; a snapshot that was given up.
a: CREATE TABLE m (time BIGINT NOT NULL, dev BIGINT, v BIGINT)
a: SELECT create_hypertable('m', 'time', chunk_time_interval => 100)
a: CREATE MATERIALIZED VIEW c WITH (timescaledb.continuous, timescaledb.materialized_only = false) AS SELECT time_bucket(10, time) AS b, count(*) AS n, sum(v) AS s FROM m GROUP BY b WITH NO DATA
a: CALL refresh_continuous_aggregate('c', NULL, NULL)
a: INSERT INTO m VALUES (120, 1, 7)
r: REFRESH CUT 'c', NULL, NULL
b: REFRESH FINISH 5
b: REFRESH SNAP 5
a: INSERT INTO m VALUES (121, 1, 1)
b: REFRESH SNAP 5
b: REFRESH FINISH 5
b: REFRESH FINISH 5
r: REFRESH SNAP
b: REFRESH SNAP
q: SELECT * FROM c
