-- Each refusal of a statement on policies, and which comes first.
a: CREATE TABLE m (time BIGINT NOT NULL, dev BIGINT, v BIGINT)
a: SELECT create_hypertable('m', 'time', chunk_time_interval => 100)
a: CREATE MATERIALIZED VIEW c WITH (timescaledb.continuous, timescaledb.materialized_only = false) AS SELECT time_bucket(10, time) AS b, count(*) AS n, sum(v) AS s FROM m GROUP BY b WITH NO DATA
a: CREATE TABLE plain (time BIGINT, v BIGINT)
p: SELECT add_retention_policy('z', drop_after => -1)
p: SELECT add_retention_policy('c', drop_after => -1)
p: SELECT add_retention_policy('plain', drop_after => 1)
p: SELECT add_continuous_aggregate_policy('z', start_offset => -1, end_offset => 0, schedule_interval => 0)
p: SELECT add_continuous_aggregate_policy('m', start_offset => -1, end_offset => 0, schedule_interval => 0)
p: SELECT add_continuous_aggregate_policy('c', start_offset => 25, end_offset => 10, schedule_interval => 1)
p: SELECT add_continuous_aggregate_policy('c', start_offset => 29, end_offset => 10, schedule_interval => 1)
p: SELECT add_continuous_aggregate_policy('c', start_offset => 30, end_offset => 10, schedule_interval => 1)
p: SELECT add_continuous_aggregate_policy('c', start_offset => 30, end_offset => -1, schedule_interval => 1)
p: SELECT add_continuous_aggregate_policy('c', start_offset => -1, end_offset => NULL, schedule_interval => 1)
p: SELECT add_continuous_aggregate_policy('c', start_offset => NULL, end_offset => NULL, schedule_interval => 0)
p: SELECT add_continuous_aggregate_policy('c', start_offset => NULL, end_offset => NULL, schedule_interval => 1125899906842624)
p: SELECT add_continuous_aggregate_policy('c', start_offset => NULL, end_offset => NULL, schedule_interval => 1125899906842625)
p: SELECT add_continuous_aggregate_policy('c', start_offset => 1125899906842624, end_offset => 0, schedule_interval => 1)
p: SELECT add_continuous_aggregate_policy('c', start_offset => 1125899906842625, end_offset => 0, schedule_interval => 1)
p: select ADD_RETENTION_POLICY('M', drop_after => 0, schedule_interval => 5);
p: SELECT add_retention_policy('m', drop_after => 1, schedule_interval => 0)
p: SELECT add_retention_policy('m', drop_after => 1125899906842625)
p: SELECT add_retention_policy('m', drop_after => 9223372036854775808)
p: SELECT add_retention_policy('m', 5)
p: SELECT add_retention_policy, count(*) FROM m GROUP BY 1
p: TICK
p: TICK x
p: TICK 1 2
p: TICK 9223372036854775808
p: TICK 4611686018427387904
p: TICK -4611686018427387905
p: BEGIN
p: TICK
p: TICK 5
p: SELECT add_retention_policy('z', drop_after => 1)
p: COMMIT
p: BEGIN READ ONLY
p: TICK 4611686018427387904
p: SELECT add_continuous_aggregate_policy('z', start_offset => -1, end_offset => 0, schedule_interval => 0)
p: COMMIT
