-- What is refused, and why: the text, the block, then names and values from left to right.
SELECT * FROM m
a: SELECT #
a: SELEC
a: SELECT * FROM m
a: COMMIT
a: CALL refresh_continuous_aggregate('m', NULL, NULL)
a: CREATE TABLE m (time BIGINT NOT NULL, v BIGINT, time BIGINT)
a: CREATE TABLE m (time BIGINT NOT NULL, v BIGINT)
a: INSERT INTO m VALUES (1, 2)
a: SELECT create_hypertable('m', 'time', chunk_time_interval => 0)
a: SELECT create_hypertable('m', 'time', chunk_time_interval => 10)
a: INSERT INTO m VALUES (1, 2), (NULL, 3)
a: INSERT INTO m VALUES (1, 99999999999999999999)
a: SELECT * FROM m
