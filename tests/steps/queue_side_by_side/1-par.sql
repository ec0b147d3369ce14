-- A write block that asks runs beside a session that asks: the one sees its queue, the other never does, and neither
-- makes an event.
setup: CREATE TABLE m (time BIGINT NOT NULL, v BIGINT)
setup: SELECT create_hypertable('m', 'time', chunk_time_interval => 100)
setup: INSERT INTO m VALUES (3, 1), (12, 2)
w: BEGIN
r: SELECT * FROM m
w: DELETE FROM m WHERE v = 1
w: INSERT INTO m VALUES (14, 5)
r: SELECT time_bucket(10, time) AS b, sum(v) FROM m GROUP BY b
w: SELECT * FROM m
w: SELECT time_bucket(10, time) AS b, sum(v) FROM m GROUP BY b
w: SELECT * FROM missing
r: SELECT * FROM m
w: ROLLBACK
w: SELECT * FROM m
final: BEGIN
final: DELETE FROM m
final: SELECT * FROM m
final: COMMIT
