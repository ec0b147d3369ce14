-- What may be refused in a read block, which goes on after each refusal.
a: CREATE TABLE m (time BIGINT NOT NULL, dev BIGINT, v BIGINT)
a: SELECT create_hypertable('m', 'time', chunk_time_interval => 100)
a: CREATE MATERIALIZED VIEW c WITH (timescaledb.continuous, timescaledb.materialized_only = false) AS SELECT time_bucket(10, time) AS b, count(*) AS n, sum(v) AS s FROM m GROUP BY b WITH NO DATA
a: BEGIN READ ONLY
a: SELECT #
a: SELEC
a: SELECT * FROM z
a: SELECT * FROM m WHERE w = 1
a: SELECT * FROM m WHERE v = 9223372036854775808
a: SELECT time_bucket(10, b) AS x, count(*) FROM c GROUP BY x
a: SELECT time_bucket(0, time) AS x, count(*) FROM m GROUP BY x
a: DELETE FROM m
a: REFRESH CUT 'c', 0, 10
a: REFRESH FINISH
a: BEGIN
a: ROLLBACK
