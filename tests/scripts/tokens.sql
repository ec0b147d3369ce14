-- A token is as long as it may be, and where none begins its place is named.
a: CREATE TABLE m (time BIGINT NOT NULL, v BIGINT)
a: SELECT create_hypertable('m', 'time', chunk_time_interval => 10)
a: INSERT INTO m VALUES (-7, 007), (-0, 5)
a: INSERT INTO m VALUES (1, 9223372036854775807), (2, -9223372036854775808)
a: INSERT INTO m VALUES (3, 0000000000000000000000000000000000000000000001)
a: SELECT * FROM m WHERE v<=3
a: SELECT * FROM m WHERE v>=3
a: SELECT * FROM m WHERE v<>7
a: SELECT * FROM m WHERE v!=7
a: SELECT * FROM m WHERE v<3
a: SELECT time_bucket(10,time),count(*)FROM m GROUP BY 1
a: SELECT drop_chunks('m',older_than=>-1000)
a: SELECT * FROM SeLeCt_1 x
a: SELECT * FROM _
a: SELECT * FROM a1(
a: INSERT INTO m VALUES (1a)
a: INSERT INTO m VALUES (5-3)
a: SELECT * FROM aaaaaaaaaaaaaaaaaaaaaaaaaaaaaaaaaaaaaaaaaaaaaaaaaaaaaaaaaaaaaaa
a: SELECT * FROM aaaaaaaaaaaaaaaaaaaaaaaaaaaaaaaaaaaaaaaaaaaaaaaaaaaaaaaaaaaaaaaa
a: SELECT drop_chunks('M_1', 1)
a: SELECT drop_chunks('aaaaaaaaaaaaaaaaaaaaaaaaaaaaaaaaaaaaaaaaaaaaaaaaaaaaaaaaaaaaaaa', 1)
a: SELECT drop_chunks('aaaaaaaaaaaaaaaaaaaaaaaaaaaaaaaaaaaaaaaaaaaaaaaaaaaaaaaaaaaaaaaa', 1)
a: SELECT * FROM m WHERE v==3
a: SELECT * FROM m WHERE v><3
a: 
a:COMMIT 	
a: INSERT INTO m VALUES (- 7)
a: -
a: -a
a: INSERT INTO m VALUES (1, 9223372036854775808)
a: INSERT INTO m VALUES (1, -9223372036854775809)
a: SELECT drop_chunks('', 1)
a: SELECT drop_chunks('m, 1)
a: SELECT drop_chunks(' m', 1)
a: SELECT drop_chunks('1', 1)
a: SELECT drop_chunks('a b', 1)
a: SELECT * FROM m WHERE v!
a: SELECT * FROM m WHERE v ! = 3
a: #
a: CREATE TABLE 9a (time BIGINT)
a: CREATE TABLE a-b (time BIGINT)
a: CREATE TABLE a9_z (Time BIGINT)
a: CREATE TABLE A9_Z (time BIGINT)
a: CREATE TABLE m_1 (time BIGINT NOT NULL)
a: SELECT create_hypertable('M_1', 'Time', chunk_time_interval => -007)
a: SELECT create_hypertable('M_1', 'Time', chunk_time_interval => 007)
