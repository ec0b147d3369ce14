-- Refresh and retention policies: which are due at a tick, and what each runs.
a: CREATE TABLE m (time BIGINT NOT NULL, dev BIGINT, v BIGINT)
a: SELECT create_hypertable('m', 'time', chunk_time_interval => 100)
a: CREATE MATERIALIZED VIEW c WITH (timescaledb.continuous, timescaledb.materialized_only = false) AS SELECT time_bucket(10, time) AS b, count(*) AS n, sum(v) AS s FROM m GROUP BY b WITH NO DATA
a: INSERT INTO m VALUES (120, 1, 7)
p: SELECT add_continuous_aggregate_policy('c', start_offset => 200, end_offset => 10, schedule_interval => 50)
p: SELECT add_retention_policy('m', drop_after => 100)
p: TICK 250
p: TICK 260
p: TICK 300
q: SELECT * FROM c
p: TICK 300
q: TICK 300
