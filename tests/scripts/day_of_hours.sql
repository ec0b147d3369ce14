-- A day of hours, in seconds, with a row that comes a day late.
a: CREATE TABLE conditions (time BIGINT NOT NULL, device BIGINT, temp BIGINT)
a: SELECT create_hypertable('conditions', 'time', chunk_time_interval => 86400)
a: INSERT INTO conditions VALUES (1704067200, 1, 20), (1704070800, 1, 22), (1704070860, 2, 19)
a: CREATE MATERIALIZED VIEW hourly WITH (timescaledb.continuous, timescaledb.materialized_only = false) AS SELECT time_bucket(3600, time) AS bucket, device, avg(temp), max(temp) FROM conditions GROUP BY bucket, device
a: INSERT INTO conditions VALUES (1704153600, 1, 18)
a: INSERT INTO conditions VALUES (1704067260, 1, 24)
q: SELECT * FROM hourly
a: CALL refresh_continuous_aggregate('hourly', 1704067200, 1704153600)
q: SELECT * FROM hourly
