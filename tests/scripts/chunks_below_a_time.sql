-- Only chunks that end at or before the time are dropped.
a: CREATE TABLE m (time BIGINT NOT NULL, v BIGINT)
a: SELECT create_hypertable('m', 'time', chunk_time_interval => 100)
a: INSERT INTO m (time) VALUES (-150), (-100), (-50), (0), (199), (200), (249)
a: SELECT drop_chunks('m', -1)
a: SELECT * FROM m WHERE time < 0
a: SELECT drop_chunks('m', 0)
a: SELECT drop_chunks('m', 200)
a: SELECT drop_chunks('m', 250)
a: SELECT * FROM m
