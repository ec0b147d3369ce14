-- NULL in counts, sums and keys.
a: CREATE TABLE m (time BIGINT NOT NULL, dev BIGINT, v BIGINT)
a: SELECT create_hypertable('m', 'time', chunk_time_interval => 100)
a: CREATE MATERIALIZED VIEW c WITH (timescaledb.continuous, timescaledb.materialized_only = false) AS SELECT time_bucket(10, time) AS b, count(*) AS n, sum(v) AS s FROM m GROUP BY b WITH NO DATA
a: INSERT INTO m VALUES (1, NULL, NULL), (2, NULL, NULL), (3, 4, NULL), (4, 4, 6)
a: SELECT time_bucket(10, time) AS b, dev, count(*), count(v), sum(v) FROM m GROUP BY b, dev
