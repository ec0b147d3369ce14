-- The statements of a write block take effect as one event, each seeing those before it.
a: CREATE TABLE m (time BIGINT NOT NULL, dev BIGINT, v BIGINT)
a: SELECT create_hypertable('m', 'time', chunk_time_interval => 100)
a: CREATE MATERIALIZED VIEW c WITH (timescaledb.continuous, timescaledb.materialized_only = false) AS SELECT time_bucket(10, time) AS b, count(*) AS n, sum(v) AS s FROM m GROUP BY b WITH NO DATA
w: BEGIN
w: INSERT INTO m (v, time) VALUES (7, 1), (8, 2)
q: SELECT * FROM m
w: DELETE FROM m WHERE v = 7
w: COMMIT
w: SELECT * FROM m
w: BEGIN
w: COMMIT
w: BEGIN
w: DELETE FROM m
w: ROLLBACK
w: SELECT * FROM m
