-- A write block sees its own queue, as one commit on top of what is there when it asks. Nobody else does.
a: CREATE TABLE m (time BIGINT NOT NULL, dev BIGINT, v BIGINT)
a: SELECT create_hypertable('m', 'time', chunk_time_interval => 100)
a: CREATE MATERIALIZED VIEW c WITH (timescaledb.continuous, timescaledb.materialized_only = false) AS SELECT time_bucket(10, time) AS b, count(*) AS n, sum(v) AS s FROM m GROUP BY b WITH NO DATA
a: INSERT INTO m VALUES (120, 1, 7), (130, 1, 3)
a: CALL refresh_continuous_aggregate('c', 100, 200)
w: BEGIN
w: SELECT * FROM m
w: DELETE FROM m WHERE v = 3
w: SELECT * FROM c WHERE b >= 100
w: SELECT time_bucket(10, time) AS b, count(*) FROM m GROUP BY b
q: SELECT * FROM m
q: INSERT INTO m VALUES (140, 1, 2)
w: SELECT * FROM m
w: COMMIT
w: SELECT * FROM m
