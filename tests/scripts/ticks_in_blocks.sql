-- Ticks in each kind of block: they are refused, run nothing and mark nothing. What is due runs after the block.
a: CREATE TABLE m (time BIGINT NOT NULL, v BIGINT)
a: SELECT create_hypertable('m', 'time', chunk_time_interval => 100)
a: CREATE MATERIALIZED VIEW c WITH (timescaledb.continuous) AS SELECT time_bucket(10, time) AS b, count(*) AS n FROM m GROUP BY b WITH NO DATA
a: INSERT INTO m VALUES (5, 1)
p: SELECT add_continuous_aggregate_policy('c', start_offset => NULL, end_offset => 0, schedule_interval => 10)
p: SELECT add_retention_policy('m', drop_after => 0, schedule_interval => 10)
p: BEGIN
p: TICK 5
p: TICK 5;
p: INSERT INTO m VALUES (15, 2)
p: TICK 4611686018427387904
p: SELECT add_retention_policy('m', drop_after => 1)
p: SELECT add_continuous_aggregate_policy('z', start_offset => 1, end_offset => 2, schedule_interval => 0)
p: COMMIT
p: BEGIN READ ONLY
p: TICK 5
p: SELECT add_retention_policy('m', drop_after => 1)
p: SELECT add_continuous_aggregate_policy('c', start_offset => NULL, end_offset => NULL, schedule_interval => 1)
q: TICK 5
p: TICK
p: ROLLBACK
p: BEGIN
p: INSERT INTO m VALUES (25, 3)
p: TICK 5
p: ROLLBACK
p: TICK 20
p: BEGIN
p: TICK 30
p: COMMIT
p: TICK 29
p: TICK 30
