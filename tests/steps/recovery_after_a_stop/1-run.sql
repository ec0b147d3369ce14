-- A day of readings, an aggregate of hours, and a refresh that is cut and not finished.
writer: CREATE TABLE readings (time BIGINT NOT NULL, sensor BIGINT NOT NULL, value BIGINT)
writer: SELECT create_hypertable('readings', 'time', chunk_time_interval => 86400)
writer: CREATE MATERIALIZED VIEW hours WITH (timescaledb.continuous) AS SELECT time_bucket(3600, time) AS hour, sensor, count(*) AS readings, avg(value) AS mean FROM readings GROUP BY hour, sensor WITH NO DATA
writer: INSERT INTO readings VALUES (0, 1, 20), (1800, 1, 22), (3600, 1, 25), (3700, 2, 9)
refresher: REFRESH CUT 'hours', NULL, NULL
-- A write block that is open at the end of the input is given up.
writer: BEGIN
writer: DELETE FROM readings
