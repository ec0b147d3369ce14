-- Ticks whose statements are refused or find nothing: the next policy runs, and each has run then.
a: CREATE TABLE m (time BIGINT NOT NULL, dev BIGINT, v BIGINT)
a: SELECT create_hypertable('m', 'time', chunk_time_interval => 100)
a: CREATE MATERIALIZED VIEW c WITH (timescaledb.continuous, timescaledb.materialized_only = false) AS SELECT time_bucket(10, time) AS b, count(*) AS n, sum(v) AS s FROM m GROUP BY b WITH NO DATA
p: SELECT add_continuous_aggregate_policy('c', start_offset => NULL, end_offset => 0, schedule_interval => 2)
p: SELECT add_continuous_aggregate_policy('c', start_offset => NULL, end_offset => NULL, schedule_interval => 3)
p: SELECT add_retention_policy('m', drop_after => 5)
p: TICK -4611686018427387904
p: TICK -4611686018427387904
p: TICK -4611686018427387903
p: TICK -4611686018427387902
p: TICK -4611686018427387901
p: TICK 4611686018427387903;
p: tick 0
