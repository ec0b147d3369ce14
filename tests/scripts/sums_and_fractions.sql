-- What each function shows of a column: with NULLs, past 64 bits, and in lowest terms.
a: CREATE TABLE m (time BIGINT NOT NULL, k BIGINT, v BIGINT)
a: SELECT create_hypertable('m', 'time', chunk_time_interval => 10)
a: INSERT INTO m VALUES (0, 0, NULL), (1, 0, NULL), (0, 1, NULL), (1, 1, 6), (0, 2, 9223372036854775807), (1, 2, 9223372036854775807), (0, 3, 1), (1, 3, 2), (2, 3, 2), (0, 4, -9223372036854775808), (1, 4, -9223372036854775808), (2, 4, -9223372036854775808), (0, 5, -1), (1, 5, 2), (2, 5, NULL), (3, 5, -3), (0, 6, -6), (1, 6, 0), (2, 6, 0), (3, 6, 0), (0, 7, 0), (1, 7, 0), (2, 7, 0), (3, 7, 0), (4, 7, 0), (5, 7, 0), (6, 7, 0), (0, 8, -1), (0, 9, 6), (1, 9, 0), (2, 9, 0), (3, 9, 0), (4, 9, 0), (5, 9, 0), (0, 10, -9223372036854775808), (1, 10, -9223372036854775808), (0, 11, -9223372036854775808), (1, 11, 9223372036854775807), (0, 12, 0)
a: SELECT time_bucket(10, time) AS b, k, count(*), count(v), sum(v), min(v), max(v), avg(v) FROM m GROUP BY b, k
a: CREATE MATERIALIZED VIEW c WITH (timescaledb.continuous) AS SELECT time_bucket(10, time) AS b, k, count(*), count(v) AS n, sum(v), min(v), max(v), avg(v) FROM m GROUP BY b, k
a: SELECT * FROM c
