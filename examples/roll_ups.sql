-- Roll-ups: what an aggregate shows, in wider buckets. The stale ranges are those of the wider buckets.
a: CREATE TABLE m (time BIGINT NOT NULL, dev BIGINT, v BIGINT)
a: SELECT create_hypertable('m', 'time', chunk_time_interval => 100)
a: CREATE MATERIALIZED VIEW c WITH (timescaledb.continuous, timescaledb.materialized_only = false) AS SELECT time_bucket(10, time) AS b, count(*) AS n, sum(v) AS s FROM m GROUP BY b WITH NO DATA
a: INSERT INTO m VALUES (50, 1, 5), (120, 1, 7), (250, 1, 9)
a: CALL refresh_continuous_aggregate('c', 100, 200)
a: INSERT INTO m VALUES (121, 1, 1)
a: INSERT INTO m VALUES (150, 2, 4)
a: CALL refresh_continuous_aggregate('c', 200, 300)
q: SELECT * FROM c
q: SELECT time_bucket(100, b) AS x, sum(n), sum(s) FROM c GROUP BY x
-- A width that is no multiple, a function that doesn't add up, and an aggregate over an aggregate.
q: SELECT time_bucket(15, b) AS x, sum(n), sum(s) FROM c GROUP BY x
q: SELECT time_bucket(100, b) AS x, min(s) FROM c GROUP BY x
q: CREATE MATERIALIZED VIEW e WITH (timescaledb.continuous) AS SELECT time_bucket(100, b) AS x, sum(n) FROM c GROUP BY x
-- In a read block a roll-up shows what the block began with.
q: BEGIN READ ONLY
a: CALL refresh_continuous_aggregate('c', NULL, NULL)
q: SELECT time_bucket(100, b) AS x, sum(n), sum(s) FROM c GROUP BY x
q: SELECT time_bucket(100, b, 5) AS x, sum(n) FROM c GROUP BY x
q: COMMIT
q: SELECT time_bucket(100, b) AS x, sum(n), sum(s) FROM c GROUP BY x
-- What waits in a write block makes a bucket stale for its writer, and for others once it takes effect.
w: BEGIN
w: INSERT INTO m VALUES (55, 1, 1)
w: SELECT time_bucket(100, b) AS x, sum(n), sum(s) FROM c GROUP BY x
q: SELECT time_bucket(100, b) AS x, sum(n), sum(s) FROM c GROUP BY x
w: COMMIT
q: SELECT time_bucket(100, b) AS x, sum(n), sum(s) FROM c GROUP BY x
-- A materialised-only aggregate: what isn't materialised isn't shown.
a: ALTER MATERIALIZED VIEW c SET (timescaledb.materialized_only = true)
a: INSERT INTO m VALUES (350, 1, 2)
q: SELECT time_bucket(100, b) AS x, sum(n), sum(s) FROM c GROUP BY x
