-- Temperatures by minutes. A row arrives late, the next answer names its minute as stale, and a refresh updates that.
a: CREATE TABLE temps (time BIGINT NOT NULL, celsius BIGINT)
a: SELECT create_hypertable('temps', 'time', chunk_time_interval => 3600)
a: INSERT INTO temps VALUES (10, 20), (70, 22)
a: CREATE MATERIALIZED VIEW minutes WITH (timescaledb.continuous) AS SELECT time_bucket(60, time) AS minute, count(*), avg(celsius) FROM temps GROUP BY minute

late: INSERT INTO temps VALUES (20, 25)
b: SELECT * FROM minutes

a: CALL refresh_continuous_aggregate('minutes', 0, 60)
b: SELECT * FROM minutes
