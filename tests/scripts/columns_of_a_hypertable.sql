-- The time may stand anywhere among the columns of a hypertable; names are found in any order, and rows show the columns as they were declared.
a: CREATE TABLE plain (dev BIGINT, time BIGINT NOT NULL, v BIGINT)
a: CREATE TABLE m (dev BIGINT, time BIGINT NOT NULL, v BIGINT)
a: SELECT create_hypertable('m', 'time', chunk_time_interval => 100)
a: INSERT INTO m (v, dev, time) VALUES (1, 2, 3)
a: SELECT * FROM m
a: SELECT * FROM m WHERE dev = 2 AND v = 1 AND time = 3
a: SELECT * FROM m WHERE w = 1
a: SELECT * FROM plain
a: SELECT * FROM mm
a: CREATE MATERIALIZED VIEW c WITH (timescaledb.continuous, timescaledb.materialized_only = false) AS SELECT time_bucket(10, time) AS b, count(*) AS n FROM m GROUP BY b WITH NO DATA
a: SELECT * FROM c
a: SELECT * FROM c WHERE v = 1
