-- Two sessions that only ask run side by side: where they look, and what they see, is the same at each run.
setup: CREATE TABLE m (time BIGINT NOT NULL, v BIGINT)
setup: SELECT create_hypertable('m', 'time', chunk_time_interval => 100)
a: SELECT time_bucket(10, time) AS b, sum(v) FROM m GROUP BY b
setup: INSERT INTO m VALUES (3, 1), (12, 2), (14, NULL)
no session
final: DELETE FROM m WHERE v = 1
b: SELECT * FROM m
b: SELECT * FROM missing
final: SELECT * FROM m
