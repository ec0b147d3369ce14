-- Calendar buckets of the same rows by keys, with NULL keys and values, with tests on the time, of no rows, and refused.
a: CREATE TABLE m (time BIGINT NOT NULL, dev BIGINT, v BIGINT)
a: SELECT create_hypertable('m', 'time', chunk_time_interval => 86400)
q: SELECT calendar_bucket(1, 'month', time) AS b, count(*), sum(v) FROM m GROUP BY b
a: INSERT INTO m VALUES (949363200, 1, 1), (951782400, 1, 2), (951868800, 1, 3)
q: SELECT calendar_bucket(1, 'month', time) AS b, count(*), sum(v) FROM m GROUP BY b
q: SELECT calendar_bucket(3, 'month', time) AS b, count(*), sum(v) FROM m GROUP BY b
q: SELECT calendar_bucket(1, 'month', time) AS b, min(time), max(time) FROM m WHERE time > 949363200 GROUP BY b
a: INSERT INTO m VALUES (-1, NULL, NULL), (949363201, NULL, NULL), (949363202, NULL, 7), (951868801, 2, NULL)
q: SELECT calendar_bucket(1, 'month', time) AS b, dev, count(*), count(v), sum(v), avg(v) FROM m GROUP BY b, dev
q: SELECT calendar_bucket(1, 'year', time) AS b, count(*), min(v) FROM m WHERE dev IS NULL GROUP BY b
q: SELECT calendar_bucket(2, 'day', time) AS b, count(*) FROM m WHERE v = 9 GROUP BY b
q: SELECT calendar_bucket(0, 'day', time), count(*) FROM m GROUP BY 1
q: SELECT calendar_bucket(1201, 'day', time), count(*) FROM m GROUP BY 1
q: SELECT calendar_bucket(1, 'day', v), count(*) FROM m GROUP BY 1
q: SELECT calendar_bucket(1, 'hour', time), count(*) FROM m GROUP BY 1
-- The relation is looked at first: an aggregate and a plain table are refused whatever the number and the unit are.
a: CREATE MATERIALIZED VIEW c WITH (timescaledb.continuous) AS SELECT time_bucket(10, time) AS b, count(*) AS n FROM m GROUP BY b WITH NO DATA
a: CREATE TABLE p (x BIGINT)
q: SELECT calendar_bucket(0, 'hour', b), count(*) FROM c GROUP BY 1
q: SELECT calendar_bucket(0, 'hour', x), count(*) FROM p GROUP BY 1
