-- Two refreshes, and a roll-up between them that names more wider buckets, fewer and none. The aggregate shows what
-- was materialised alone, and counts its buckets from 7.
a: CREATE TABLE m (time BIGINT NOT NULL, dev BIGINT, v BIGINT)
a: SELECT create_hypertable('m', 'time', chunk_time_interval => 100)
a: CREATE MATERIALIZED VIEW o WITH (timescaledb.continuous) AS SELECT time_bucket(10, time, 7) AS b, dev, count(*) AS n, max(v) AS top FROM m GROUP BY b, dev WITH NO DATA
a: INSERT INTO m VALUES (8, 1, 5), (18, 1, 3), (28, 2, 9), (48, NULL, NULL)
q: SELECT time_bucket(20, b, 7), sum(n), max(top) FROM o GROUP BY 1
a: CALL refresh_continuous_aggregate('o', 7, 47)
q: SELECT time_bucket(20, b, 7), sum(n), max(top) FROM o GROUP BY 1
a: INSERT INTO m VALUES (9, 1, 6)
q: SELECT time_bucket(20, b, 7), sum(n), max(top) FROM o GROUP BY 1
r: BEGIN READ ONLY
a: INSERT INTO m VALUES (29, 2, 1)
q: SELECT time_bucket(20, b, 7), sum(n), max(top) FROM o GROUP BY 1
a: CALL refresh_continuous_aggregate('o', 27, 37)
q: SELECT time_bucket(20, b, 7), sum(n), max(top) FROM o GROUP BY 1
a: CALL refresh_continuous_aggregate('o', NULL, NULL)
q: SELECT time_bucket(20, b, 7), dev, sum(n), max(top) FROM o GROUP BY 1, dev
r: SELECT time_bucket(20, b, 7), sum(n), max(top) FROM o GROUP BY 1
r: COMMIT
