-- A row that comes between the snapshot and the finish of a refresh stays named as stale.
a: CREATE TABLE m (time BIGINT NOT NULL, dev BIGINT, v BIGINT)
a: SELECT create_hypertable('m', 'time', chunk_time_interval => 100)
a: CREATE MATERIALIZED VIEW c WITH (timescaledb.continuous, timescaledb.materialized_only = false) AS SELECT time_bucket(10, time) AS b, count(*) AS n, sum(v) AS s FROM m GROUP BY b WITH NO DATA
a: INSERT INTO m VALUES (50, 1, 5), (120, 1, 7), (250, 1, 9)
a: CALL refresh_continuous_aggregate('c', 100, 200)
a: INSERT INTO m VALUES (121, 1, 1)
r: REFRESH CUT 'c', 100, 200
r: REFRESH SNAP 8
w: INSERT INTO m VALUES (122, 1, 10)
r: REFRESH FINISH 8
q: SELECT * FROM c WHERE b >= 100 AND b < 200
r: CALL refresh_continuous_aggregate('c', 100, 200)
q: SELECT * FROM c WHERE b >= 100 AND b < 200
