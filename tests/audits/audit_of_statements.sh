# Transcripts with each kind of statement, as they were and with one digit changed, and over a journal with an image. As in
# audit_of_forgeries.sh the journal is made line by line, and the transcript is that of sessions at once.
set -uo pipefail
. "$TSCTL_TOP/tests/audits/transcripts.bash"
folder=.

tsctl run >/dev/null <<'SQL'
setup: CREATE TABLE m (time BIGINT NOT NULL, dev BIGINT, v BIGINT)
setup: SELECT create_hypertable('m', 'time', chunk_time_interval => 100)
setup: CREATE MATERIALIZED VIEW c WITH (timescaledb.continuous, timescaledb.materialized_only = false) AS SELECT time_bucket(10, time) AS b, count(*) AS n, sum(v) AS s FROM m GROUP BY b WITH NO DATA
s: INSERT INTO m VALUES (5, 1, 1), (15, 1, 2), (125, 2, 7)
r: REFRESH CUT 'c', 0, 100
x: REFRESH SNAP 5
x: REFRESH FINISH 5
w: BEGIN
w: INSERT INTO m VALUES (25, 1, 4)
w: COMMIT
t: CREATE MATERIALIZED VIEW d WITH (timescaledb.continuous) AS SELECT time_bucket(100, time) AS b, count(*) FROM m GROUP BY b
t: ALTER MATERIALIZED VIEW c SET (timescaledb.materialized_only = true)
t: SELECT drop_chunks('m', older_than => 100)
t: REFRESH CUT 'd', 0, 100
SQL
tsctl log

setup="$(talk setup \
  "$(said "setup: CREATE TABLE m (time BIGINT NOT NULL, dev BIGINT, v BIGINT)" 'setup: TABLE @1\n')" \
  "$(said "setup: SELECT create_hypertable('m', 'time', chunk_time_interval => 100)" 'setup: HYPERTABLE @2\n')" \
  "$(said "setup: CREATE MATERIALIZED VIEW c WITH (timescaledb.continuous, timescaledb.materialized_only = false) AS SELECT time_bucket(10, time) AS b, count(*) AS n, sum(v) AS s FROM m GROUP BY b WITH NO DATA" 'setup: VIEW @3\n')" \
  "$(said "setup: INSERT INTO m VALUES (5, 1, 1), (15, 1, 2), (125, 2, 7)" 'setup: COMMIT @4 +3 -0\n')")"
# A read block, which others write beside; then a roll-up, buckets of the calendar and a refusal.
q="$(talk q \
  "$(said "q: BEGIN READ ONLY" 'q: BEGIN @4\n')" \
  "$(said "q: SELECT * FROM m" 'q: ANSWER @4 rows 3 stale 0\n5|1|1\n15|1|2\n125|2|7\n')" \
  "$(said "q: SELECT * FROM c" 'q: ANSWER @4 rows 3 stale 0\n0|1|1\n10|1|2\n120|1|7\n')" \
  "$(said "q: COMMIT" 'q: END\n')" \
  "$(said "q: SELECT time_bucket(100, b) AS x, sum(n), sum(s) FROM c GROUP BY x" 'q: ANSWER @7 rows 2 stale 1\n0|3|7\n100|1|7\nstale min..0\n')" \
  "$(said "q: SELECT calendar_bucket(1, 'month', time) AS b, count(*), sum(v) FROM m GROUP BY b" 'q: ANSWER @7 rows 1 stale 0\n0|4|14\n')" \
  "$(said "q: SELECT * FROM nothing" 'q: FAULT E06 no_relation @7\n')")"
# A write block with queries of its queue, of which the second looks later.
w="$(talk w \
  "$(said "w: BEGIN" 'w: BEGIN\n')" \
  "$(said "w: INSERT INTO m VALUES (25, 1, 4)" 'w: QUEUED\n')" \
  "$(said "w: SELECT * FROM m WHERE time < 100" 'w: ANSWER @4 queue 1 rows 3 stale 0\n5|1|1\n15|1|2\n25|1|4\n')" \
  "$(said "w: SELECT * FROM c" 'w: ANSWER @6 queue 1 rows 4 stale 1\n0|1|1\n10|1|2\n20|1|4\n120|1|7\nstale min..0\n')" \
  "$(said "w: INSERT INTO n VALUES (1)" 'w: FAULT E06 no_relation @6\n')" \
  "$(said "w: COMMIT" 'w: COMMIT @7 +1 -0\n')")"
# A refresh that is refused in the middle, since another session has finished it.
r="$(talk r "$(said "r: CALL refresh_continuous_aggregate('c', 0, 100)" 'r: CUT 5 0..100\nr: FAULT E19 no_refresh @6 finished 6\n')")"
x="$(talk x "$(said "x: REFRESH SNAP 5" 'x: SNAP 5 @5\n')" "$(said "x: REFRESH FINISH 5" 'x: FINISH 5 @6 snap 5\n')")"
t="$(talk t \
  "$(said "t: CREATE MATERIALIZED VIEW d WITH (timescaledb.continuous) AS SELECT time_bucket(100, time) AS b, count(*) FROM m GROUP BY b" 't: VIEW @8\nt: REFRESH 9 @10 snap 9 min..200\n')" \
  "$(said "t: ALTER MATERIALIZED VIEW c SET (timescaledb.materialized_only = true)" 't: MODE @11\n')" \
  "$(said "t: SELECT drop_chunks('m', older_than => 100)" 't: COMMIT @12 +0 -3\n')" \
  "$(said "t: SELECT * FROM d" 't: ANSWER @12 rows 2 stale 1\n0|3\n100|1\nstale 0..100\n')" \
  "$(said "t: REFRESH CUT 'd', 0, 100" 't: CUT 13 0..100\n')")"
run="$(transcript 0 "$setup" "$q" "$w" "$r" "$x" "$t")"
audited "as it was" <<<"$run"

echo "# in a read block, a roll-up, a bucket of the calendar, a refusal"
forged "a cell of what was held" 's/15|1|2\\n125|2|7/15|1|2\\n125|2|8/'
forged "an answer of the present in it" 's/q: ANSWER @4 rows 3 stale 0\\n5|1|1\\n15|1|2\\n/&25|1|4\\n/; s/q: ANSWER @4 rows 3/q: ANSWER @7 rows 4/'
forged "begun one earlier" 's/q: BEGIN @4/q: BEGIN @3/'
forged "a cell of a roll-up" 's/0|3|7/0|3|8/'
forged "its stale range" 's/100|1|7\\nstale min..0/100|1|7\\nstale min..9/'
forged "a cell of a month" 's/0|4|14/0|4|15/'
forged "refused earlier" 's/q: FAULT E06 no_relation @7/q: FAULT E06 no_relation @6/'
forged "refused behind the end" 's/q: FAULT E06 no_relation @7/q: FAULT E06 no_relation @14/'
forged "refused later" 's/q: FAULT E06 no_relation @7/q: FAULT E06 no_relation @13/'

echo "# in a write block"
forged "a cell of what waits" 's/25|1|4/25|1|5/'
forged "what waits" 's/queue 1/queue 2/'
forged "an answer without it" 's/ queue 1 rows 3 stale 0\\n5|1|1\\n15|1|2\\n25|1|4/ queue 0 rows 2 stale 0\\n5|1|1\\n15|1|2/'
forged "another refusal" 's/w: FAULT E06 no_relation @6/w: QUEUED/'
forged "what took effect" 's/w: COMMIT @7 +1/w: COMMIT @7 +2/'
others="$(said "y: SELECT * FROM m WHERE time < 100" 'y: ANSWER @4 queue 1 rows 3 stale 0\n5|1|1\n15|1|2\n25|1|4\n')"
transcript 0 "$setup" "$q" "$w" "$r" "$x" "$t" "$(talk y "$others")" | audited "shown to another session"
transcript 0 "$setup" "$q" "$w" "$r" "$x" "$t" "$(talk y "${others/queue 1 /}")" | audited "the same as if it had taken effect"
transcript 0 "$setup" "$q" "$w" "$r" "$x" "$t" "$(talk y "$(said "y: BEGIN" 'y: BEGIN\n')" "$others")" | audited "shown in another block"

echo "# refreshes and what is made"
forged "the cut of a refused refresh" 's/r: CUT 5 0..100/r: CUT 5 0..110/'
forged "why it was refused" 's/finished 6/finished 5/'
forged "without the refusal" 's/0..100\\nr: FAULT[^"]*"/0..100\\n"/'
forged "the refusal alone" 's/r: CUT 5 0..100\\nr/r/'
forged "the window of a new aggregate" 's/snap 9 min..200/snap 9 min..201/'
forged "its snapshot" 's/snap 9/snap 8/'
forged "rows that were dropped" 's/@12 +0 -3/@12 +0 -2/'
forged "a snapshot before the cut" 's/SNAP 5 @5/SNAP 5 @4/'

echo "# behind an image at @13, in which a refresh waits"
tsctl checkpoint | sed 's/ bytes .*//'
tsctl run >/dev/null <<'SQL'
u: REFRESH SNAP 13
u: INSERT INTO m VALUES (30, 1, 1)
u: REFRESH FINISH 13
SQL
cp tsctl.journal before
u="$(talk u \
  "$(said "u: SELECT * FROM d" 'u: ANSWER @13 rows 2 stale 1\n0|3\n100|1\nstale 0..100\n')" \
  "$(said "u: REFRESH SNAP 13" 'u: SNAP 13 @13\n')" \
  "$(said "u: INSERT INTO m VALUES (30, 1, 1)" 'u: COMMIT @14 +1 -0\n')" \
  "$(said "u: REFRESH FINISH 13" 'u: FINISH 13 @15 snap 13\n')" \
  "$(said "u: SELECT * FROM d" 'u: ANSWER @15 rows 1 stale 1\n100|1\nstale 0..100\n')")"
audited "from the first event on" <<<"$run"
transcript 12 "$u" | audited "from one before the image on"
run="$(transcript 13 "$u")"
audited "from the image on" <<<"$run"
forged "one cell" 's/100|1\\nstale 0..100\\n"}\]/100|2\\nstale 0..100\\n"}]/'
forged "its refresh" 's/snap 13/snap 14/'
forged "without the row" 's/{"line":"u: INSERT[^}]*},//'
cmp tsctl.journal before
