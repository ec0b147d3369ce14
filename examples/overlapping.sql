-- Two refreshes overlap while rows come: the one with the older snapshot finishes last.
admin: CREATE TABLE trades (time BIGINT NOT NULL, price BIGINT)
admin: SELECT create_hypertable('trades', 'time', chunk_time_interval => 100)
admin: CREATE MATERIALIZED VIEW tens WITH (timescaledb.continuous, timescaledb.materialized_only = false) AS SELECT time_bucket(10, time) AS ten, count(*) AS trades, sum(price) AS total FROM trades GROUP BY ten WITH NO DATA
feed: INSERT INTO trades VALUES (5, 100), (15, 110), (25, 120)
early: REFRESH CUT 'tens', 0, 30
early: REFRESH SNAP
feed: INSERT INTO trades VALUES (6, 1), (16, 2)
late: REFRESH CUT 'tens', 10, 20
feed: INSERT INTO trades VALUES (17, 3), (26, 4)
late: REFRESH SNAP
late: REFRESH FINISH
-- The watermark is at 20. Below it only the bucket 10 was refreshed; above it rows are folded as they are.
dashboard: SELECT * FROM tens
early: REFRESH FINISH
-- The bucket 10 keeps what the later snapshot gave. 0 and 20 were touched after the snapshot of theirs.
dashboard: SELECT * FROM tens
early: REFRESH FINISH
late: REFRESH SNAP 7
late: REFRESH SNAP 8
admin: CALL refresh_continuous_aggregate('tens', NULL, NULL)
dashboard: SELECT * FROM tens
