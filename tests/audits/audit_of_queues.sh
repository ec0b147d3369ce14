# Queries in a write block, at positions below those at which the queued tables became hypertables, and at these. A run
# never prints the lower ones, since an operation is queued only on a hypertable.
set -uo pipefail
. "$TSCTL_TOP/tests/audits/transcripts.bash"
folder=.

table="s: CREATE TABLE m (time BIGINT NOT NULL, dev BIGINT, v BIGINT)"
hyper="s: SELECT create_hypertable('m', 'time', chunk_time_interval => 100)"
other="s: CREATE TABLE t2 (time BIGINT NOT NULL, v BIGINT)"
other_hyper="s: SELECT create_hypertable('t2', 'time', chunk_time_interval => 100)"
printf '%s\n' "$table" "$hyper" "$other" "$other_hyper" | tsctl run
s="$(talk s "$(said "$table" 's: TABLE @1\n')" "$(said "$hyper" 's: HYPERTABLE @2\n')" "$(said "$other" 's: TABLE @3\n')" "$(said "$other_hyper" 's: HYPERTABLE @4\n')")"
row="$(said "w: INSERT INTO m VALUES (5, 1, 7)" 'w: QUEUED\n')"
shown="$(said "w: SELECT * FROM m" 'w: ANSWER @4 queue 2 rows 1 stale 0\n5|1|7\n')"
block() { talk w "$(said "w: BEGIN" 'w: BEGIN\n')" "$@" "$(said "w: ROLLBACK" 'w: ROLLBACK\n')"; }

echo "# a row of each table"
run="$(transcript 0 "$s" "$(block "$(said "w: INSERT INTO t2 VALUES (1, 1)" 'w: QUEUED\n')" "$row" "$shown")")"
audited "as it was" <<<"$run"
forged "before the second is a hypertable" 's/ANSWER @4/ANSWER @3/'
forged "before it exists" 's/ANSWER @4/ANSWER @2/'
forged "before the first is a hypertable" 's/ANSWER @4/ANSWER @1/'
forged "before it exists, and its row not counted" 's/ANSWER @4 queue 2/ANSWER @2 queue 1/'
forged "behind the end" 's/ANSWER @4/ANSWER @5/'

echo "# a delete from the second"
run="$(transcript 0 "$s" "$(block "$row" "$(said "w: DELETE FROM t2 WHERE time < 9" 'w: QUEUED\n')" "$shown")")"
audited "as it was" <<<"$run"
forged "before it exists" 's/ANSWER @4/ANSWER @2/'

echo "# a query that is refused"
run="$(transcript 0 "$s" "$(block "$row" "$(said "w: SELECT drop_chunks('t2', older_than => 100)" 'w: QUEUED\n')" "$(said "w: SELECT * FROM nothing" 'w: FAULT E06 no_relation @4\n')")")"
audited "as it was" <<<"$run"
forged "before the second is a hypertable" 's/no_relation @4/no_relation @3/'

echo "# rows of the first alone"
run="$(transcript 0 "$s" "$(block "$row" "${shown/queue 2/queue 1}" "$(said "w: INSERT INTO t2 VALUES (1, 1)" 'w: QUEUED\n')")")"
audited "at the end" <<<"$run"
forged "before the second exists, to which a row is queued later" 's/ANSWER @4/ANSWER @2/'
forged "before the first is a hypertable" 's/ANSWER @4/ANSWER @1/'

echo "# the same queries in a run"
printf '%s\n' "w: BEGIN" "w: INSERT INTO t2 VALUES (1, 1)" "w: INSERT INTO m VALUES (5, 1, 7)" "w: SELECT * FROM m" \
  "w: SELECT * FROM nothing" "w: COMMIT" | tsctl par json >told
audited "as it was" <told
