-- Queries between the statements of a write block: each sees those before it in their order, and one that is
-- refused where it looks leaves the block as it is.
a: CREATE TABLE m (time BIGINT NOT NULL, dev BIGINT, v BIGINT)
a: SELECT create_hypertable('m', 'time', chunk_time_interval => 100)
a: CREATE MATERIALIZED VIEW c WITH (timescaledb.continuous, timescaledb.materialized_only = false) AS SELECT time_bucket(10, time) AS b, count(*) AS n, sum(v) AS s FROM m GROUP BY b WITH NO DATA
w: BEGIN
w: INSERT INTO m VALUES (1, 1, 5), (2, 1, 6)
w: DELETE FROM m WHERE v = 5
w: SELECT * FROM m
w: INSERT INTO m VALUES (1, 1, 5)
w: SELECT * FROM m
w: SELECT * FROM z
w: SELECT * FROM m WHERE w = 1
w: SELECT time_bucket(0, time), count(*) FROM m GROUP BY 1
w: SELECT time_bucket(15, b) AS x, sum(n) FROM c GROUP BY x
w: SELECT calendar_bucket(1, 'fortnight', time), count(*) FROM m GROUP BY 1
w: SELEC
w: REFRESH SNAP 3
q: CREATE TABLE n (time BIGINT)
w: SELECT * FROM z
w: SELECT * FROM n
w: SELECT * FROM m WHERE time = 1
w: COMMIT
w: SELECT * FROM m
