-- Old chunks are dropped, and the rollup keeps what they gave until it is refreshed there.
operator: CREATE TABLE load (time BIGINT NOT NULL, host BIGINT, busy BIGINT)
operator: SELECT create_hypertable('load', 'time', chunk_time_interval => 100)
-- Without materialized_only = false an aggregate shows only what was refreshed.
operator: CREATE MATERIALIZED VIEW hundreds WITH (timescaledb.continuous) AS SELECT time_bucket(100, time) AS start, avg(busy) AS busy FROM load GROUP BY start WITH NO DATA
agent: BEGIN
agent: INSERT INTO load VALUES (10, 1, 40), (20, 2, 60)
agent: INSERT INTO load VALUES (110, 1, 30), (210, 1, 90)
dashboard: SELECT * FROM load
agent: COMMIT
dashboard: SELECT * FROM hundreds
operator: CALL refresh_continuous_aggregate('hundreds', NULL, 200)
dashboard: SELECT * FROM hundreds
operator: SELECT drop_chunks('load', older_than => 200)
dashboard: SELECT * FROM load
dashboard: SELECT * FROM hundreds
-- A refresh of the newest buckets alone leaves the old ones as they are.
operator: CALL refresh_continuous_aggregate('hundreds', 200, 300)
dashboard: SELECT * FROM hundreds
operator: CALL refresh_continuous_aggregate('hundreds', 0, 100)
dashboard: SELECT * FROM hundreds
operator: ALTER MATERIALIZED VIEW hundreds SET (timescaledb.materialized_only = false)
agent: INSERT INTO load VALUES (330, 2, 70)
dashboard: SELECT * FROM hundreds
