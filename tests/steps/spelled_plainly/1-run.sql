-- Each form of a statement, in lower case and with a blank where one may be.
a:create table m (time bigint not null, v bigint)
a:select create_hypertable('m', 'time', chunk_time_interval => 100)
a:create materialized view c with (timescaledb.continuous, timescaledb.materialized_only = true) as select time_bucket(10, time, 0) as b, count(*) from m group by b with data
a:create materialized view d with (timescaledb.continuous) as select time_bucket(1, time), sum(v) from m group by time_bucket with no data
a:alter materialized view c set (timescaledb.materialized_only = false)
a:create table e (time bigint not null, dev bigint, v bigint)
a:select create_hypertable('e', 'time', chunk_time_interval => 100)
a:insert into e values (1, null, -3), (2, 4, 5)
a:insert into m (v, time) values (7, 1)
a:select * from m
a:delete from m
a:create table w (time bigint not null, v bigint, w bigint, x bigint, y bigint)
a:select create_hypertable('w', 'time', chunk_time_interval => 100)
a:insert into w values (1, 1, 0, null, 0), (2, 1, -2, null, 0), (3, 1, 0, 0, 0), (4, 1, 0, null, null), (5, 2, 0, null, 0)
a:delete from w where v = 1 and w <> -2 and x is null and y is not null
a:delete from w where v < 2 and w <= 0 and time > 2 and time >= 3
a:select * from w
a:select drop_chunks('m', older_than => 5)
a:call refresh_continuous_aggregate('c', null, 7)
a:refresh cut 'c', -1, null
a:insert into m values (15, 8)
a:refresh cut 'c', -1, null
a:refresh snap 20
a:refresh finish
a:begin
a:commit
a:begin read only
a:rollback
a:select time_bucket(10, time, 3) as b, dev, avg(v) as x, max(v), min(v), count(v) from e where dev = 4 group by b, dev
a:create table abcdefghijklmnopqrstuvwxyz_0123456789_abcdefghijklmnopqrstuvwxy (time bigint not null)
a:select create_hypertable('abcdefghijklmnopqrstuvwxyz_0123456789_abcdefghijklmnopqrstuvwxy', 'time', chunk_time_interval => 7)
a:delete from abcdefghijklmnopqrstuvwxyz_0123456789_abcdefghijklmnopqrstuvwxy
a:refresh cut 'abcdefghijklmnopqrstuvwxyz_0123456789_abcdefghijklmnopqrstuvwxy', 1, 2
a:select * from c where b >= 10
