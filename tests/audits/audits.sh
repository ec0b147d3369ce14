# What `audit` says of a transcript beside its journal: each answer once, which of them comes first, how a call ends, and
# a run of three sessions at once.
set -uo pipefail

# What an audit of standard input prints in a folder, and its status.
audited() {
  tsctl --in "$1" audit
  echo "status $?"
}

# The transcript of one session with these replies, from a start on.
one_session() {
  printf '{"sessions":[{"name":"a","replies":[%s]}],"start":%s}\n' "$1" "$2"
}
table='{"line":"a: CREATE TABLE m (time BIGINT NOT NULL, v BIGINT)","reply":"a: TABLE @1\n"}'
tick='{"line":"a: TICK 1","reply":"a: TICK 1 due 0\n"}'

mkdir one
echo "a: CREATE TABLE m (time BIGINT NOT NULL, v BIGINT)" | tsctl --in one par json >printed
one_session "$table" 0 | cmp - printed && audited one <printed
one_session "${table/@1/@2}" 0 | audited one
one_session "" 0 | audited one
one_session "$table" 2 | audited one
echo "{}" | audited one
one_session "$table,$tick" 0 | audited one

echo "# which comes first: BAD, then EARLY, then POLICY, then NO, the first of two, then LOST"
one_session "$tick,${table/a: CREATE/b: CREATE}" 2 | audited one
one_session "$tick" 2 | audited one
one_session "${table/@1/@2},$tick" 0 | audited one
one_session "${table/@1/@2},${table/@1/@3}" 0 | audited one
one_session '{"line":"a: COMMIT","reply":"a: COMMIT EMPTY\n"}' 0 | audited one

echo "# how a call ends"
mkdir none damaged
printf '{"sessions":[],"start":0}' | audited none 2>&1 | sed "s|$PWD|HERE|"
ls none
audited one </dev/null
audited one <none 2>&1
one_session "$table" 0 | tsctl --in one audit 2>&1 >/dev/full; echo "status $?"
cp "$TSCTL_TOP/tests/journals/magic_changed.journal" damaged/tsctl.journal
one_session "$table" 0 | audited damaged 2>&1
for words in "audit audit" "audit json" Audit; do
  tsctl --in one $words <printed 2>&1; echo "status $?"
done
tsctl --in one -- audit <printed

echo "# a run of three sessions, with stale buckets, a queue and a refresh in phases; in another order of its sessions"
mkdir three
cat >script <<'SQL'
setup: CREATE TABLE m (time BIGINT NOT NULL, v BIGINT)
setup: SELECT create_hypertable('m', 'time', chunk_time_interval => 100)
setup: INSERT INTO m VALUES (10, 1), (20, 2), (110, 3)
setup: CREATE MATERIALIZED VIEW c WITH (timescaledb.continuous) AS SELECT time_bucket(100, time) AS b, count(*), sum(v) FROM m GROUP BY b
setup: INSERT INTO m VALUES (30, 4)
a: BEGIN
a: INSERT INTO m VALUES (40, 5)
a: SELECT * FROM m
a: COMMIT
b: BEGIN READ ONLY
b: SELECT * FROM c
b: COMMIT
b: SELECT * FROM nothing
final: SELECT * FROM c
final: REFRESH CUT 'c', 0, 100
final: REFRESH SNAP
final: REFRESH FINISH
final: SELECT * FROM c
SQL
tsctl --in three par json <script >printed
cp three/tsctl.journal before
audited three <printed
sed 's/{"sessions":\[\(.*\),\({"name":"final".*}\)\],"start"/{"sessions":[\2,\1],"start"/' printed >turned
cmp -s printed turned || audited three <turned
echo "# its snapshot one lower; two columns of an answer exchanged; and setup left out"
sed 's/FINISH 9 @10 snap 9/FINISH 9 @10 snap 8/' printed | audited three
sed 's/100|1|3/100|3|1/' printed | audited three
sed 's/{"name":"setup","replies":\[[^]]*\]},//' printed | audited three
cmp three/tsctl.journal before
