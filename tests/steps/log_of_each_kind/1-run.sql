-- An event of each kind; the log and what waits then are the next two steps.
a: CREATE TABLE m (dev BIGINT, time BIGINT NOT NULL, val BIGINT)
a: SELECT create_hypertable('m', 'time', chunk_time_interval => 100)
a: CREATE MATERIALIZED VIEW c WITH (timescaledb.continuous, timescaledb.materialized_only = false) AS SELECT time_bucket(100, time, 7) AS bucket, count(*) AS n FROM m GROUP BY bucket WITH NO DATA
a: ALTER MATERIALIZED VIEW c SET (timescaledb.materialized_only = true)
a: ALTER MATERIALIZED VIEW c SET (timescaledb.materialized_only = false)
a: BEGIN
a: INSERT INTO m (time) VALUES (5), (206)
a: DELETE FROM m WHERE time = 1000
a: COMMIT
a: REFRESH CUT 'c', -93, 207
a: REFRESH CUT 'c', NULL, -93
a: REFRESH CUT 'c', 107, 207
a: REFRESH SNAP 7
a: REFRESH FINISH 7
