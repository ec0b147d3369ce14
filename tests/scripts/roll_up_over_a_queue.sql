-- Roll-ups and buckets of the calendar over what waits in a write block: by a late row, and by a delete.
a: CREATE TABLE m (time BIGINT NOT NULL, dev BIGINT, v BIGINT)
a: SELECT create_hypertable('m', 'time', chunk_time_interval => 100)
a: CREATE MATERIALIZED VIEW c WITH (timescaledb.continuous, timescaledb.materialized_only = false) AS SELECT time_bucket(10, time) AS b, count(*) AS n, sum(v) AS s FROM m GROUP BY b WITH NO DATA
a: INSERT INTO m VALUES (12, 1, 5), (120, 1, 7)
a: CALL refresh_continuous_aggregate('c', NULL, 200)
w: BEGIN
w: INSERT INTO m VALUES (121, 1, 1), (250, 1, 9)
w: SELECT time_bucket(100, b) AS x, sum(n), sum(s) FROM c GROUP BY x
w: SELECT calendar_bucket(1, 'day', time) AS d, count(*), sum(v) FROM m GROUP BY d
w: DELETE FROM m WHERE time < 100
w: SELECT time_bucket(100, b) AS x, sum(n), sum(s) FROM c GROUP BY x
w: SELECT calendar_bucket(1, 'day', time) AS d, count(*), sum(v) FROM m GROUP BY d
w: ROLLBACK
w: SELECT time_bucket(100, b) AS x, sum(n), sum(s) FROM c GROUP BY x
