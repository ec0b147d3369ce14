# Forged transcripts beside the history that the run left, and what `audit` says of each. The journals are made line by
# line, so that the order of their events is known; the transcripts are those of runs of several sessions at once that made
# these events. In a transcript a line feed is written \n, here too.
set -uo pipefail
. "$TSCTL_TOP/tests/audits/transcripts.bash"

table="setup: CREATE TABLE m (time BIGINT NOT NULL, dev BIGINT, v BIGINT)"
hyper="setup: SELECT create_hypertable('m', 'time', chunk_time_interval => 100)"
view="setup: CREATE MATERIALIZED VIEW c WITH (timescaledb.continuous, timescaledb.materialized_only = false) AS SELECT time_bucket(10, time) AS b, count(*) AS n, sum(v) AS s FROM m GROUP BY b WITH NO DATA"
row="setup: INSERT INTO m VALUES (120, 1, 7)"
refresh="r: CALL refresh_continuous_aggregate('c', 100, 200)"
late="w: INSERT INTO m VALUES (121, 1, 1)"
ask="final: SELECT * FROM c WHERE b >= 100"
setup="$(talk setup "$(said "$table" 'setup: TABLE @1\n')" "$(said "$hyper" 'setup: HYPERTABLE @2\n')" "$(said "$view" 'setup: VIEW @3\n')" "$(said "$row" 'setup: COMMIT @4 +1 -0\n')")"
w="$(talk w "$(said "$late" 'w: COMMIT @6 +1 -0\n')")"

echo "# a row comes before the snapshot of a refresh"
folder=before
mkdir before
printf '%s\n' "$table" "$hyper" "$view" "$row" "r: REFRESH CUT 'c', 100, 200" "$late" "r: REFRESH SNAP" "r: REFRESH FINISH" | tsctl --in before run >/dev/null
tsctl --in before log | tail -n 3
run="$(transcript 0 "$setup" "$(talk r "$(said "$refresh" 'r: REFRESH 5 @7 snap 6 100..200\n')")" "$w" "$(talk final "$(said "$ask" 'final: ANSWER @7 rows 1 stale 0\n120|2|8\n')")")"
audited "as it was" <<<"$run"
forged "snapshot one lower" 's/snap 6/snap 5/'
forged "the answer of the other order" 's/stale 0\\n120|2|8\\n/stale 1\\n120|1|7\\nstale 120..130\\n/'

echo "# the row comes after the snapshot"
folder=after
mkdir after
printf '%s\n' "$table" "$hyper" "$view" "$row" "r: REFRESH CUT 'c', 100, 200" "r: REFRESH SNAP" "$late" "r: REFRESH FINISH" | tsctl --in after run >/dev/null
tsctl --in after log | tail -n 3
r="$(talk r "$(said "$refresh" 'r: REFRESH 5 @7 snap 5 100..200\n')")"
final="$(talk final "$(said "$ask" 'final: ANSWER @7 rows 1 stale 1\n120|1|7\nstale 120..130\n')")"
run="$(transcript 0 "$setup" "$r" "$w" "$final")"
audited "as it was" <<<"$run"

echo "# what is told of the refresh, the row and the answer"
forged "snapshot one lower" 's/snap 5/snap 4/'
forged "snapshot one higher" 's/snap 5/snap 6/'
forged "another window" 's/snap 5 100..200/snap 5 100..210/'
forged "another cut" 's/REFRESH 5/REFRESH 6/'
forged "another row" 's/(121, 1, 1)/(121, 2, 1)/'
forged "a commit one lower" 's/COMMIT @6/COMMIT @5/'
forged "a commit one higher" 's/COMMIT @6/COMMIT @7/'
forged "a commit behind the end" 's/COMMIT @6/COMMIT @8/'
forged "a count" 's/COMMIT @6 +1/COMMIT @6 +2/'
forged "one cell" 's/120|1|7/120|1|8/'
forged "no stale range" 's/stale 1\\n120|1|7\\nstale 120..130\\n/stale 0\\n120|1|7\\n/'
forged "a longer stale range" 's/120..130/120..140/'
forged "no row" 's/rows 1 stale 1\\n120|1|7\\n/rows 0 stale 1\\n/'
forged "no line feed at the end" 's/120..130\\n/120..130/'
forged "two of them: the first" 's/snap 5/snap 4/; s/120|1|7/120|1|8/'

echo "# replies left out, told twice, exchanged"
transcript 0 "$setup" "$r" "$final" | audited "without w"
transcript 0 "$setup" "$w" "$final" | audited "without r"
forged "without the hypertable" "s/{\"line\":\"setup: SELECT[^}]*},//"
transcript 0 "$setup" "$r" "$w" "${w//\"w/\"x}" "$final" | audited "the row of w told by x too"
forged "the row told twice by w" 's/\({"line":"w: [^}]*}\)/\1,\1/'
forged "two events of setup exchanged" 's/\({"line":"setup: CREATE MAT[^}]*}\),\({"line":"setup: INSERT[^}]*}\)/\2,\1/'
forged "their replies alone" 's/setup: VIEW @3/setup: COMMIT @4 +1 -0/; s/setup: COMMIT @4 +1 -0\(\\n"}\]\)/setup: VIEW @3\1/'
transcript 0 "$setup" "$r" "${final/120|1|7/120|1|8}" | audited "without w, and one cell"

echo "# sessions: in any order, and by any name"
transcript 0 "$final" "$w" "$r" "$setup" | audited "the last one first"
transcript 0 "$w" "${final/120|1|7/120|1|8}" "$setup" "$r" | audited "in another order, and one cell"
forged "w is x in its line" 's/"w: INSERT/"x: INSERT/'
forged "w is x in its reply" 's/"w: COMMIT/"x: COMMIT/'
forged "w is x in its name" 's/"name":"w"/"name":"x"/'
forged "w is x everywhere" 's/"w/"x/g'
forged "w is r everywhere" 's/"w/"r/g'

echo "# the start"
transcript 4 "$r" "$w" "$final" | audited "without what was before"
transcript 3 "$r" "$w" "$final" | audited "one lower"
transcript 5 "$r" "$w" "$final" | audited "one higher"
transcript 4 "$setup" "$r" "$w" "$final" | audited "one higher than what setup did last"
transcript 7 | audited "nobody, from the end on"
transcript 8 | audited "behind the end"

echo "# what it can't see: a question left out; an answer of an earlier position, where none of the session is later"
transcript 0 "$setup" "$r" "$w" | audited "without final"
old="$(said "$ask" 'final: ANSWER @4 rows 1 stale 0\n120|1|7\n')"
transcript 0 "$setup" "$r" "$w" "$(talk final "$old")" | audited "an earlier answer"
transcript 0 "$setup" "$r" "$w" "${final/\}]/\},$old]}" | audited "an earlier answer after a later one"
