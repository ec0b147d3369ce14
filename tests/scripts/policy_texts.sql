-- Statements on policies as texts: cut at each token, with numbers beyond 64 bits, in capitals, and with semicolons.
a: CREATE TABLE m (time BIGINT NOT NULL, dev BIGINT, v BIGINT)
a: SELECT create_hypertable('m', 'time', chunk_time_interval => 100)
a: CREATE MATERIALIZED VIEW c WITH (timescaledb.continuous) AS SELECT time_bucket(10, time) AS b, count(*) AS n FROM m GROUP BY b WITH NO DATA
p:
p: SELECT
p: SELECT add_continuous_aggregate_policy
p: SELECT add_continuous_aggregate_policy(
p: SELECT add_continuous_aggregate_policy('c'
p: SELECT add_continuous_aggregate_policy('c',
p: SELECT add_continuous_aggregate_policy('c', start_offset
p: SELECT add_continuous_aggregate_policy('c', start_offset =>
p: SELECT add_continuous_aggregate_policy('c', start_offset => 200
p: SELECT add_continuous_aggregate_policy('c', start_offset => 200,
p: SELECT add_continuous_aggregate_policy('c', start_offset => 200, end_offset
p: SELECT add_continuous_aggregate_policy('c', start_offset => 200, end_offset =>
p: SELECT add_continuous_aggregate_policy('c', start_offset => 200, end_offset => 10
p: SELECT add_continuous_aggregate_policy('c', start_offset => 200, end_offset => 10,
p: SELECT add_continuous_aggregate_policy('c', start_offset => 200, end_offset => 10, schedule_interval
p: SELECT add_continuous_aggregate_policy('c', start_offset => 200, end_offset => 10, schedule_interval =>
p: SELECT add_continuous_aggregate_policy('c', start_offset => 200, end_offset => 10, schedule_interval => 50
p: SELECT add_continuous_aggregate_policy('c', start_offset => 200, end_offset => 10, schedule_interval => 50)
p: SELECT add_continuous_aggregate_policy('c', start_offset => 200, end_offset => 10, schedule_interval => 50);
p: SELECT add_retention_policy
p: SELECT add_retention_policy(
p: SELECT add_retention_policy('m'
p: SELECT add_retention_policy('m',
p: SELECT add_retention_policy('m', drop_after
p: SELECT add_retention_policy('m', drop_after =>
p: SELECT add_retention_policy('m', drop_after => 100
p: SELECT add_retention_policy('m', drop_after => 100,
p: SELECT add_retention_policy('m', drop_after => 100, schedule_interval
p: SELECT add_retention_policy('m', drop_after => 100, schedule_interval =>
p: SELECT add_retention_policy('m', drop_after => 100, schedule_interval => 7
p: SELECT add_retention_policy('m', drop_after => 100, schedule_interval => 7)
p: SELECT add_retention_policy('m', drop_after => 100, schedule_interval => 7);
p: TICK
p: SELECT add_retention_policy('m', drop_after => 100)
p: SELECT add_retention_policy('m', drop_after => 100);
p: SELECT add_continuous_aggregate_policy('c', start_offset => 9223372036854775808, end_offset => 10, schedule_interval => 50);
p: SELECT add_continuous_aggregate_policy('c', start_offset => 200, end_offset => 9223372036854775808, schedule_interval => 50);
p: SELECT add_continuous_aggregate_policy('c', start_offset => 200, end_offset => 10, schedule_interval => 9223372036854775808);
p: SELECT add_retention_policy('m', drop_after => 9223372036854775808, schedule_interval => 7);
p: SELECT add_retention_policy('m', drop_after => 100, schedule_interval => 9223372036854775808);
p: TICK 9223372036854775808;
p: SELECT add_continuous_aggregate_policy('c', start_offset => -9223372036854775809, end_offset => 10, schedule_interval => 50);
p: SELECT add_continuous_aggregate_policy('c', start_offset => 200, end_offset => -9223372036854775809, schedule_interval => 50);
p: SELECT add_continuous_aggregate_policy('c', start_offset => 200, end_offset => 10, schedule_interval => -9223372036854775809);
p: SELECT add_retention_policy('m', drop_after => -9223372036854775809, schedule_interval => 7);
p: SELECT add_retention_policy('m', drop_after => 100, schedule_interval => -9223372036854775809);
p: TICK -9223372036854775809;
p: SELECT add_continuous_aggregate_policy('c', start_offset => 9223372036854775807, end_offset => 10, schedule_interval => 50);
p: SELECT add_continuous_aggregate_policy('c', start_offset => 200, end_offset => 9223372036854775807, schedule_interval => 50);
p: SELECT add_continuous_aggregate_policy('c', start_offset => 200, end_offset => 10, schedule_interval => 9223372036854775807);
p: SELECT add_retention_policy('m', drop_after => 9223372036854775807, schedule_interval => 7);
p: SELECT add_retention_policy('m', drop_after => 100, schedule_interval => 9223372036854775807);
p: TICK 9223372036854775807
p: SELECT add_continuous_aggregate_policy('c', start_offset => -9223372036854775808, end_offset => 10, schedule_interval => 50);
p: SELECT add_continuous_aggregate_policy('c', start_offset => 200, end_offset => -9223372036854775808, schedule_interval => 50);
p: SELECT add_continuous_aggregate_policy('c', start_offset => 200, end_offset => 10, schedule_interval => -9223372036854775808);
p: SELECT add_retention_policy('m', drop_after => -9223372036854775808, schedule_interval => 7);
p: SELECT add_retention_policy('m', drop_after => 100, schedule_interval => -9223372036854775808);
p: TICK -9223372036854775808
p: SELECT add_retention_policy('m', drop_after => 9223372036854775808
p: SELECT add_retention_policy('m' drop_after => 9223372036854775808)
p: TICK 9223372036854775808 #
p: TICK 5 #
p: TICK #
p: SELECT add_retention_policy#('m', drop_after => 1)
p: SELECT ADD_CONTINUOUS_AGGREGATE_POLICY('C', START_OFFSET => NULL, END_OFFSET => null, SCHEDULE_INTERVAL => 1)
p: select add_Continuous_Aggregate_Policy('c',start_offset=>Null,end_offset=>0,schedule_interval=>1);
p: SELECT ADD_RETENTION_POLICY('M', DROP_AFTER => 0)
p:select Add_Retention_Policy('m',drop_after=>0,Schedule_Interval=>1);
p: SELECT add_continuous_aggregate_policy('c', end_offset => 10, start_offset => 200, schedule_interval => 50)
p: SELECT add_continuous_aggregate_policy('c', 200, 10, 50)
p: SELECT add_continuous_aggregate_policy(c, start_offset => 200, end_offset => 10, schedule_interval => 50)
p: SELECT add_continuous_aggregate_policy('c', start_offset = 200, end_offset => 10, schedule_interval => 50)
p: SELECT add_continuous_aggregate_policy('c', start_offset => 200, end_offset => 10, schedule_interval => NULL)
p: SELECT add_retention_policy('m', drop_after => NULL)
p: SELECT add_retention_policy('m', schedule_interval => 5, drop_after => 1)
p: SELECT add_retention_policy('m', drop_after => 1, 5)
p: TICK NULL
p: TICK 'x'
p: TICK - 5
p: SELECT add_continuous_aggregate_policy('c', start_offset => 200, end_offset => 10, schedule_interval => 50);;
p: SELECT add_continuous_aggregate_policy('c', start_offset => 200, end_offset => 10, schedule_interval => 50); TICK 5
p: ;SELECT add_continuous_aggregate_policy('c', start_offset => 200, end_offset => 10, schedule_interval => 50)
p: SELECT add_retention_policy('m', drop_after => 100);;
p: SELECT add_retention_policy('m', drop_after => 100); TICK 5
p: ;SELECT add_retention_policy('m', drop_after => 100)
p: TICK 5;;
p: TICK 5; TICK 5
p: ;TICK 5
p: TICKS 5
p: 'tick' 5
q: TICK 0
q: tick 0;
q:Tick -5 
