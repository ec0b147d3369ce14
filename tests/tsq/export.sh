# A journal as SQL for TimescaleDB and for PostgreSQL, by tools/tsq.
set -euo pipefail
tsq="$TSCTL_TOP/tools/tsq"

tsctl run >/dev/null <<'END'
feed: CREATE TABLE load (busy BIGINT, time BIGINT NOT NULL, host BIGINT, ctid BIGINT)
feed: CREATE TABLE later (time BIGINT)
feed: SELECT create_hypertable('load', 'time', chunk_time_interval => 100)
feed: INSERT INTO load (time, host, busy) VALUES (15, 2, 60), (5, 1, 40), (-5, 1, NULL), (250, 2, 1)
feed: CREATE MATERIALIZED VIEW tens WITH (timescaledb.continuous, timescaledb.materialized_only = false) AS SELECT time_bucket(10, time, 5) AS start, host, count(*), avg(busy) AS mean FROM load WHERE busy > 0 AND ctid IS NULL GROUP BY start, host WITH NO DATA
feed: CALL refresh_continuous_aggregate('tens', NULL, 35)
feed: CALL refresh_continuous_aggregate('tens', 95, 115)
feed: CALL refresh_continuous_aggregate('tens', 105, 125)
feed: DELETE FROM load WHERE host = 2
END
"$tsq" export 2>&1
echo
"$tsq" export --plain 2>/dev/null
echo
"$tsq" export --plain --stale | tail -n 5

# Where tsctl doesn't say what is stale nothing is printed; two names that begin alike have a table each.
TSCTL=false "$tsq" export --stale 2>&1 || echo "status $?"
long=a_name_of_fifty_letters_and_some_more_as_there_may_be
for name in "${long}_x" "${long}_y"; do
  echo "feed: CREATE MATERIALIZED VIEW $name WITH (timescaledb.continuous) AS SELECT time_bucket(10, time) AS start, count(*) FROM load GROUP BY start"
done | tsctl run >/dev/null
echo "feed: DELETE FROM load WHERE host = 1" | tsctl run >/dev/null
"$tsq" export --stale | grep -c "^CREATE TABLE .*_stale"
"$tsq" export --stale | grep "^CREATE TABLE .*_stale" | sort -u | wc -l

# What a folder remembers: dates, decimals and texts, and policies by the clock.
mkdir remembered && cd remembered
tsctl run >/dev/null <<'SQL'
a: CREATE TABLE pg_class (time BIGINT NOT NULL, device BIGINT, celsius BIGINT, level BIGINT)
a: SELECT create_hypertable('pg_class', 'time', chunk_time_interval => 60)
a: CREATE MATERIALIZED VIEW hours WITH (timescaledb.continuous, timescaledb.materialized_only = false) AS SELECT time_bucket(3600, time, 1800) AS hour, device, avg(celsius) AS mean, max(time) AS last FROM pg_class WHERE device <> 2 AND celsius >= -150 AND time > -9223372036854775808 GROUP BY hour, device WITH NO DATA
a: CREATE MATERIALIZED VIEW weeks WITH (timescaledb.continuous) AS SELECT time_bucket(604800, time) AS week, sum(level) AS total FROM pg_class GROUP BY week WITH NO DATA
SQL
seq 0 60 72000 | awk 'BEGIN { print "time,device,celsius,level" } { print $1 ",it'"'"'s " NR % 3 "," $1 / 100 "," $1 % 2 }' >rows.csv
"$tsq" load rows.csv --into . --table pg_class --header --times s --epoch s --scale celsius=2 --texts device,level >/dev/null
tsctl run >/dev/null <<'SQL'
a: INSERT INTO pg_class VALUES (-62135596801, 9, -5, NULL)
a: CALL refresh_continuous_aggregate('hours', NULL, 5400)
SQL
cat >policies.sql <<'SQL'
p: SELECT add_continuous_aggregate_policy('hours', start_offset => NULL, end_offset => INTERVAL '1 hour', schedule_interval => 90)
p: SELECT add_retention_policy('pg_class', drop_after => INTERVAL '30 days')
p: TICK 5
SQL
"$tsq" export --policies policies.sql 2>&1 | awk '/^[0-9]/ && ++rows > 3 { next } 1'
echo
"$tsq" export --plain --stale 2>&1 | awk '/^[0-9]/ && ++rows > 3 { next } 1'
"$tsq" export --bigint --chunk 86400 --schema other 2>&1 | awk '/^[0-9]/ && ++rows > 3 { next } 1' | head -n 20
"$tsq" export --scale nosuch=1 2>&1 || echo "status $?"
"$tsq" export --plain --policies policies.sql 2>&1 || echo "status $?"

# A journal without an event gives nothing, which is said.
mkdir empty
tsctl --in empty run </dev/null
"$tsq" export --in empty 2>&1
