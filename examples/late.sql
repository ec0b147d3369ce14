-- Late rows: what they touch below the watermark is named as stale until it is refreshed.
writer: CREATE TABLE readings (time BIGINT NOT NULL, sensor BIGINT NOT NULL, value BIGINT)
writer: SELECT create_hypertable('readings', 'time', chunk_time_interval => 600)
writer: INSERT INTO readings VALUES (0, 1, 10), (30, 2, 20), (65, 1, 12), (125, 1, 14)
-- An aggregate without WITH NO DATA is refreshed as it is made: three events, two lines.
writer: CREATE MATERIALIZED VIEW minutes WITH (timescaledb.continuous, timescaledb.materialized_only = false) AS SELECT time_bucket(60, time) AS minute, sensor, count(*) AS readings, max(value) AS highest FROM readings GROUP BY minute, sensor
dashboard: SELECT * FROM minutes
-- One late row, and one above the watermark, which is at 180.
writer: INSERT INTO readings VALUES (40, 1, 17)
writer: INSERT INTO readings VALUES (190, 2, 9)
dashboard: SELECT * FROM minutes
dashboard: SELECT * FROM minutes WHERE minute >= 60
refresher: CALL refresh_continuous_aggregate('minutes', 0, 60)
dashboard: SELECT * FROM minutes WHERE minute < 60
-- A statement is noted from its least time to its greatest: here from 30 to 190.
writer: DELETE FROM readings WHERE sensor = 2
dashboard: SELECT * FROM minutes
refresher: CALL refresh_continuous_aggregate('minutes', NULL, NULL)
dashboard: SELECT * FROM minutes
