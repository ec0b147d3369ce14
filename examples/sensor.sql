-- Readings of two sensors, with a rollup by ten minutes that a second session reads while the first one writes.
plant: CREATE TABLE readings (time BIGINT NOT NULL, sensor BIGINT NOT NULL, celsius BIGINT)
plant: SELECT create_hypertable('readings', 'time', chunk_time_interval => 86400)
plant: CREATE MATERIALIZED VIEW by_ten_minutes WITH (timescaledb.continuous, timescaledb.materialized_only = false) AS SELECT time_bucket(600, time) AS bucket, sensor, count(*) AS readings, avg(celsius) AS mean FROM readings GROUP BY bucket, sensor WITH NO DATA
plant: INSERT INTO readings VALUES (1704067200, 1, 20), (1704067260, 1, 21), (1704067200, 2, 18), (1704067800, 2, NULL)
wall: SELECT * FROM by_ten_minutes

-- A late reading, and one from before 1970.
wall: BEGIN READ ONLY
plant: INSERT INTO readings VALUES (1704067320, 1, 23), (-30, 2, -4)
wall: SELECT * FROM by_ten_minutes WHERE bucket >= 1704067200 AND bucket < 1704067800
wall: COMMIT
wall: SELECT * FROM by_ten_minutes

-- What is known of sensor 2 alone.
wall: SELECT time_bucket(86400, time), min(celsius), max(celsius), count(celsius) FROM readings WHERE sensor = 2 GROUP BY time_bucket
