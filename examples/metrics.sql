-- Requests of a service by route and status, in milliseconds. Old chunks go; what the rollup shows goes with them.
web: CREATE TABLE requests (ms BIGINT NOT NULL, route BIGINT, status BIGINT, took BIGINT)
web: SELECT create_hypertable('requests', 'ms', chunk_time_interval => 1000)
web: CREATE MATERIALIZED VIEW per_half_second WITH (timescaledb.continuous, timescaledb.materialized_only = false) AS SELECT time_bucket(500, ms) AS slot, status, count(*) AS n, max(took) AS slowest FROM requests WHERE status >= 400 GROUP BY slot, status WITH NO DATA
web: INSERT INTO requests VALUES (10, 1, 200, 12), (20, 1, 404, 3), (480, 2, 500, 90), (499, 2, 500, NULL), (1200, 1, 404, 4), (2100, NULL, 500, 7)
ops: SELECT * FROM per_half_second
ops: SELECT time_bucket(1000, ms) AS second, route, count(*), avg(took) FROM requests GROUP BY second, route
ops: SELECT drop_chunks('requests', older_than => 1999)
ops: SELECT * FROM per_half_second
ops: SELECT drop_chunks('requests', 1999)
ops: SELECT * FROM requests WHERE route IS NULL
