# The replies to a script by tools/tsq: answers as tables, refusals explained; and answers for other programs.
set -euo pipefail
tsq="$TSCTL_TOP/tools/tsq"

cat >script.sql <<'END'
feed: CREATE TABLE load (time BIGINT NOT NULL, host BIGINT, busy BIGINT)
feed: SELECT create_hypertable('load', 'time', chunk_time_interval => 86400)
feed: INSERT INTO load VALUES (1704067200, 1, 40), (1704067205, 1, 41), (1704067230, 1, 43), (1704067290, 2, NULL)
feed: CREATE MATERIALIZED VIEW minutes WITH (timescaledb.continuous) AS SELECT time_bucket(60, time) AS minute, host, avg(busy) AS mean, max(time) FROM load GROUP BY minute, host
feed: INSERT INTO load VALUES (1704067210, 1, 90)
wall: SELECT * FROM minutes
-- Blank lines and comments have no reply.

wall: SELECT * FROM load WHERE host = 2
wall: SELECT time_bucket(3600, time), sum(busy), sum(host), avg(busy) FROM load GROUP BY 1
wall: SELECT * FROM load WHERE time < 0
wall: SELECT * FROM load ORDER BY time
wall: SELECT * FROM nothing
END
"$tsq" run --in . script.sql || echo "status $?"

# The next run goes on with the journal, which knows the names of the columns.
echo "wall: SELECT * FROM minutes" >ask.sql
"$tsq" run ask.sql --times s
"$tsq" run ask.sql --csv --times s 2>&1
"$tsq" run ask.sql --json --fractions 2>/dev/null
"$tsq" run ask.sql --places 1 | tail -n 4

# The greatest time in a month of the calendar, and in the days of a roll-up, are dates too.
cat >dates.sql <<'END'
wall: SELECT calendar_bucket(1, 'month', time) AS month, count(*), max(time) AS last FROM load GROUP BY month
wall: SELECT time_bucket(86400, minute) AS day, max(max) AS last FROM minutes GROUP BY day
END
"$tsq" run dates.sql --times s
"$tsq" run dates.sql --json 2>/dev/null
"$tsq" run dates.sql --json --ranges
"$tsq" run ask.sql --csv --ranges --times s
"$tsq" run ask.sql --ranges 2>&1 || echo "status $?"

# Columns may have words of the SQL for names, and the greatest time of an aggregate makes no time of another greatest.
cat >names.sql <<'END'
n: CREATE TABLE odd (time BIGINT NOT NULL, max BIGINT, as BIGINT, from BIGINT)
n: SELECT create_hypertable('odd', 'time', chunk_time_interval => 86400)
n: INSERT INTO odd VALUES (1704067200, 7, 8, 9)
n: SELECT time_bucket(60, time) AS b, max, count(*) AS as, sum(as), sum(from) AS from FROM odd GROUP BY b, max
n: CREATE MATERIALIZED VIEW tops WITH (timescaledb.continuous) AS SELECT time_bucket(60, time) AS minute, max(as) AS top, max(time) FROM odd GROUP BY minute
n: SELECT time_bucket(86400, minute) AS day, max(top), max(max) AS last FROM tops GROUP BY day
END
"$tsq" run names.sql --times s

# A script with Windows line ends; replies that were kept; sessions at once.
mkdir other
sed 's/$/\r/' script.sql >windows.sql
(cd other && tsctl run <../windows.sql >../replies || true)
"$tsq" run windows.sql --replies replies --csv 2>/dev/null | tail -n 2 || true

# Replies that are cut off, too few or too many are told.
printf 'wall: ANSWER @7 rows 2 stale 1\n1704067200|1|124/3|1704067230\n' >cut
"$tsq" run ask.sql --replies cut 2>&1 || echo "status $?"
"$tsq" run ask.sql --replies /dev/null 2>&1 || echo "status $?"
"$tsq" run /dev/null --replies cut 2>&1 || echo "status $?"

# A program that a signal ends, and one that is named from here and called in another folder.
printf '#!/bin/sh\nkill -9 $$\n' >killed
printf '#!/bin/sh\nexec tsctl "$@"\n' >named
chmod +x killed named
TSCTL=./killed "$tsq" run ask.sql --in other 2>&1 || echo "status $?"
echo "wall: SELECT * FROM load WHERE host = 2" | TSCTL=./named "$tsq" run --in other

# Without a standard input nothing is asked.
"$tsq" run --in other <&-

mkdir par
cat >par.sql <<'END'
final: SELECT * FROM load
setup: CREATE TABLE load (time BIGINT NOT NULL, host BIGINT, busy BIGINT)
setup: SELECT create_hypertable('load', 'time', chunk_time_interval => 86400)
b: COMMIT;
no session
a: INSERT INTO load VALUES (1704067200, 1, 40)
END
"$tsq" run --par --in par par.sql || echo "status $?"

# An answer of 16,000 rows.
mkdir many
cd many
seq -f "%.0f,1" 0 15999 >many.csv
{
  echo "a: CREATE TABLE m (time BIGINT NOT NULL, v BIGINT)"
  echo "a: SELECT create_hypertable('m', 'time', chunk_time_interval => 100000)"
  "$tsq" load many.csv --table m --columns time,v
  echo "a: SELECT * FROM m"
} >many.sql
"$tsq" run many.sql --csv | cksum

# A statement over two lines; scripts of which the rest of a statement would be refused run nothing.
cd ..
printf 'a: DELETE FROM m\n  WHERE time < 3;\na: SELECT * FROM m WHERE time < 5\n' >delete.sql
"$tsq" delete.sql --in many
printf 'a: DELETE FROM m;\n  WHERE v = 7;\n' >rest.sql
"$tsq" rest.sql --in many 2>&1 || echo "status $?"
printf 'a: DELETE FROM m\n  WHERE v = 7\na: SELECT * FROM m\n' >endless.sql
"$tsq" endless.sql --in many 2>&1 || echo "status $?"
(cd many && tsctl check)

# Dates, lengths of time and texts in statements; what is sent for them; what isn't sent.
mkdir words
cat >words.sql <<'END'
a: CREATE TABLE m (time BIGINT NOT NULL, device BIGINT, celsius BIGINT)
a: SELECT create_hypertable('m', 'time', chunk_time_interval => INTERVAL '1 day')
a: CREATE MATERIALIZED VIEW hours WITH (timescaledb.continuous) AS
  SELECT time_bucket('1 hour', time) AS hour, device, count(*) AS n, avg(celsius) AS mean
  FROM m GROUP BY hour, device;
a: INSERT INTO m VALUES ('2026-10-25 06:00+02:00', 'pump-a', 215), ('2026-10-25 07:30', 'it''s -- odd', 220)   -- 'a comment'
a: CALL refresh_continuous_aggregate('hours', '2026-10-25', DATE '2026-10-25' + INTERVAL '1 day')
a: INSERT INTO m (celsius, device, time) VALUES (9223372036854775807, 'pump-a', '2026-10-25T04:30:00Z')
a: SELECT * FROM hours WHERE hour >= '2026-10-25' AND hour < '2026-10-26'
a: SELECT * FROM m WHERE device = 'pump-b'
a: SELECT * FROM m WHERE time > '2026-13-25'
a: SELECT drop_chunks('m', older_than => INTERVAL '1 month')
END
"$tsq" words.sql --in words --times s --texts device --show 2>&1 || echo "status $?"
cat words/tsctl.names
# The folder remembers what its numbers are.
printf "a: SELECT * FROM m WHERE device = 'pump-a'\na: SELECT *\n" >ask.sql
"$tsq" ask.sql --in words || true
"$tsq" ask.sql --in words --json --strings 2>/dev/null || true
printf "a: SELECT * FROM m WHERE time < 0\na: SELECT * FROM hours\na: BEGIN\n" >>ask.sql
"$tsq" ask.sql --in words --json=answers || true
"$tsq" ask.sql --in words --times ms 2>&1 || echo "status $?"

# The scale of a column that isn't there, or that is a time.
"$tsq" ask.sql --in words --scale nosuch=3 2>&1 || echo "status $?"
"$tsq" --in words --scale nosuch=3 <ask.sql 2>&1 || echo "status $?"
cat ask.sql | "$tsq" --in words --scale nosuch=3 2>&1 | tail -n 1 || echo "status $?"
"$tsq" ask.sql --in words --times s --scale time=3 2>&1 || echo "status $?"

# Words that are no command.
"$tsq" rnu x 2>&1 || echo "status $?"
"$tsq" --in words log | tail -n 1

# Stale ranges whose rows drop_chunks removed, which a refresh would lose, are named apart from those that are late.
mkdir drops
cat >drops/all.sql <<'SQL'
a: CREATE TABLE m (time BIGINT NOT NULL, v BIGINT)
a: SELECT create_hypertable('m', 'time', chunk_time_interval => 10)
a: CREATE MATERIALIZED VIEW tens WITH (timescaledb.continuous) AS SELECT time_bucket(10, time) AS b, sum(v) AS s FROM m GROUP BY b WITH NO DATA
a: INSERT INTO m VALUES (1, 1), (12, 2), (25, 3)
a: CALL refresh_continuous_aggregate('tens', NULL, NULL)
a: SELECT drop_chunks('m', 20)
a: INSERT INTO m VALUES (26, 4)
SQL
"$tsq" drops/all.sql --in drops >/dev/null
echo "a: SELECT * FROM tens" >drops/ask.sql
for form in "" --csv --json --json=answers "--csv --ranges"; do
  # shellcheck disable=SC2086
  "$tsq" drops/ask.sql --in drops $form 2>&1
done
printf '\\x\nSELECT * FROM tens\n\\stale\n' | HOME="$PWD" "$tsq" prompt --in drops 2>&1

# A definition with an interval decides the unit of times, once it is carried out. Without a unit a line says what to write.
mkdir units
echo "a: CREATE TABLE m (time BIGINT NOT NULL, v BIGINT)" | "$tsq" --in units
echo "a: SELECT create_hypertable('m', 'time', chunk_time_interval => INTERVAL '1 day')" >hyper.sql
echo "a: SELECT create_hypertable('n', 'time', chunk_time_interval => INTERVAL '1 day')" >refused.sql
"$tsq" hyper.sql --in units 2>&1 || echo "status $?"
"$tsq" refused.sql --in units --times s || echo "status $?"
"$tsq" hyper.sql --in units --times ms
cat units/tsctl.names
echo "a: SELECT add_retention_policy('m', drop_after => '30 days')" | "$tsq" --in units --show 2>&1
"$tsq" hyper.sql --in units --times s 2>&1 || echo "status $?"
