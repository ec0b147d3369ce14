-- What is wrong first is named, with its place in the line.
a:
a:   
a: SELECT #
a: SELEC
a: SELECT
a: SELECT   
a: 'select'
a:;
a:COMMIT;;
a:COMMIT COMMIT
a:COMMIT #
a:COMMIT 9223372036854775808
a: INSERT INTO m VALUES (9223372036854775808, 1, 1)
a: INSERT INTO m VALUES (9223372036854775807, -9223372036854775808, -9223372036854775809)
a:INSERT INTO m VALUES (9223372036854775808 #
a:INSERT INTO m VALUES 9223372036854775808
a:INSERT INTO m VALUES (1, # 9223372036854775808
a:INSERT INTO m VALUES (1, - 2)
a:INSERT INTO m VALUES (1 -2)
a:INSERT INTO m VALUES ()
a:INSERT INTO m VALUES (1,)
a:INSERT INTO m VALUES (1),
a:INSERT INTO m () VALUES (1)
a:INSERT INTO m VALUES (1 # 2
a:CREATE TABLE m ()
a:CREATE TABLE m (t BIGINT NOT)
a:CREATE TABLE 'm' (t BIGINT)
a:CREATE VIEW m
a:SELECT create_hypertable(m
a:SELECT create_hypertable('m', 't', chunk_time_interval = 5)
a:SELECT drop_chunks('m', older_than = 5)
a:SELECT drop_chunks('m, 5)
a:DELETE FROM m WHERE v == 1
a:DELETE FROM m WHERE v => 1
a:DELETE FROM m WHERE v IS 1
a:DELETE FROM m WHERE 1 = v
a:REFRESH 8
a:DELETE FROM abcdefghijklmnopqrstuvwxyz_0123456789_abcdefghijklmnopqrstuvwxyz
a:REFRESH CUT 'abcdefghijklmnopqrstuvwxyz_0123456789_abcdefghijklmnopqrstuvwxyz', 1, 2
a:REFRESH CUT 'c, 1, 2
a:REFRESH SNAP 9223372036854775808
a:DELETE FROM m 
a:BEGIN READ
a:SELECT time_bucket(1, t), foo(v) FROM m GROUP BY 1
a:SELECT time_bucket(1, t), sum(v), foo(v) FROM m GROUP BY 1
a:SELECT time_bucket(1, t), sum(*) FROM m GROUP BY 1
a:SELECT time_bucket(1, t), dev FROM m GROUP BY 1
a:SELECT time_bucket(1, t) FROM m GROUP BY 1
a:SELECT time_bucket(1, t), sum(v) FROM m GROUP BY 9223372036854775808
a:SELECT time_bucket(1, t), sum(v) FROM m GROUP BY 1, 2
a:SELECT time_bucket(1, t), dev, sum(v) FROM m GROUP BY 1
a:SELECT time_bucket(1, t), dev, sum(v) FROM m GROUP BY 1, time_bucket
a:SELECT time_bucket(1, t) AS b, sum(v) FROM m GROUP BY time_bucket
