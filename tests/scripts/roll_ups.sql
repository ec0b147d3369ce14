-- Roll-ups, with keys and tests on them, and each refusal.
a: CREATE TABLE m (time BIGINT NOT NULL, dev BIGINT, v BIGINT)
a: SELECT create_hypertable('m', 'time', chunk_time_interval => 100)
a: CREATE MATERIALIZED VIEW c WITH (timescaledb.continuous, timescaledb.materialized_only = false) AS SELECT time_bucket(10, time) AS b, count(*) AS n, sum(v) AS s FROM m GROUP BY b WITH NO DATA
a: CREATE MATERIALIZED VIEW d WITH (timescaledb.continuous, timescaledb.materialized_only = false) AS SELECT time_bucket(10, time) AS b, dev, count(*) AS n, min(v) AS lo FROM m GROUP BY b, dev WITH NO DATA
a: INSERT INTO m VALUES (1, 1, 5), (12, 1, 3), (15, 2, 9)
q: SELECT time_bucket(20, b), dev, sum(n), min(lo) FROM d WHERE dev = 1 GROUP BY 1, 2
q: SELECT time_bucket(20, b), sum(n), min(lo) FROM d GROUP BY 1
q: SELECT time_bucket(20, b), sum(n) FROM d WHERE dev IS NULL GROUP BY 1
-- Widths: a multiple, with what lies between the offsets a multiple too.
q: SELECT time_bucket(25, b), sum(n) FROM d GROUP BY 1
q: SELECT time_bucket(20, b, 5), sum(n) FROM d GROUP BY 1
q: SELECT time_bucket(20, b, 10), sum(n) FROM d GROUP BY 1
q: SELECT time_bucket(0, dev), sum(n) FROM d GROUP BY 1
q: SELECT time_bucket(20, dev, 5), sum(n) FROM d GROUP BY 1
-- Functions that don't add up what their column shows.
q: SELECT time_bucket(20, b), sum(lo) FROM d GROUP BY 1
q: SELECT time_bucket(20, b), min(n) FROM d GROUP BY 1
q: SELECT time_bucket(20, b), avg(n) FROM d GROUP BY 1
q: SELECT time_bucket(20, b), count(*) FROM d GROUP BY 1
-- Columns: the bucket, keys, tests on keys, and aggregates, each where it belongs.
q: SELECT time_bucket(20, b), max(dev) FROM d GROUP BY 1
q: SELECT time_bucket(20, b), sum(b) FROM d GROUP BY 1
q: SELECT time_bucket(20, b), sum(n) FROM d WHERE b = 0 GROUP BY 1
q: SELECT time_bucket(20, b), n, sum(n) FROM d GROUP BY 1, n
-- From left to right: the misfit stands before the test.
q: SELECT time_bucket(20, b), sum(lo) FROM d WHERE b = 0 GROUP BY 1
-- NULL keys are one group, and a least value of none is NULL.
a: INSERT INTO m VALUES (2, NULL, NULL), (13, NULL, NULL)
q: SELECT time_bucket(20, b), dev, sum(n), min(lo) FROM d GROUP BY 1, dev
-- An aggregate with an offset, and its buckets in wider ones: those of 20 from 7 lie in no buckets of 40 from 0.
a: CREATE MATERIALIZED VIEW o WITH (timescaledb.continuous, timescaledb.materialized_only = false) AS SELECT time_bucket(20, time, 7) AS b, max(v) AS top FROM m GROUP BY b WITH NO DATA
q: SELECT time_bucket(40, b), max(top) FROM o GROUP BY 1
q: SELECT time_bucket(40, b, 27), max(top) FROM o GROUP BY 1
