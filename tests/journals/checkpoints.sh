# The word checkpoint: its lines, what it leaves of a journal, and that a later run goes on as over the whole history.
set -uo pipefail

size() { stat -c %s tsctl.journal; }
put() { printf "$2" | dd of=tsctl.journal bs=1 seek="$1" conv=notrunc status=none; }
table="a: CREATE TABLE m (time BIGINT NOT NULL, dev BIGINT, v BIGINT)"
hyper="a: SELECT create_hypertable('m', 'time', chunk_time_interval => 100)"
view="a: CREATE MATERIALIZED VIEW c WITH (timescaledb.continuous, timescaledb.materialized_only = false) AS SELECT time_bucket(10, time) AS b, count(*) AS n, sum(v) AS s FROM m GROUP BY b WITH NO DATA"
refresh="r: CALL refresh_continuous_aggregate('c', 100, 200)"
query="q: SELECT * FROM c WHERE b >= 100 AND b < 200"

echo "-- nothing to save: the header is written all the same"
mkdir empty && cd empty
tsctl checkpoint && tsctl check && size
tsctl checkpoint; cd ..

echo "-- one table: the bytes of docs/JOURNAL.md, and no input is read"
mkdir one && cd one
echo "a: CREATE TABLE m (time BIGINT NOT NULL, v BIGINT)" | tsctl run
printf 'a: CREATE TABLE other (time BIGINT)\nmore\n' >input
{ tsctl checkpoint; cat; } <input
head -c 78 tsctl.journal | od -An -v -tx1
tsctl log && tsctl check
tsctl checkpoint
echo "a: SELECT create_hypertable('m', 'time', chunk_time_interval => 100)" | tsctl run
tsctl log && tsctl checkpoint && tsctl log; cd ..

echo "-- a refresh that waits, taken up behind the image"
mkdir waiting && cd waiting
printf '%s\n' "$table" "$hyper" "$view" "a: CALL refresh_continuous_aggregate('c', NULL, NULL)" \
  "a: INSERT INTO m VALUES (120, 1, 7)" "r: REFRESH CUT 'c', NULL, NULL" | tsctl run
tsctl check
tsctl checkpoint
tsctl check
printf '%s\n' "b: REFRESH FINISH 5" "b: REFRESH SNAP 5" "b: REFRESH FINISH 5" "b: REFRESH FINISH 5" | tsctl run; cd ..

echo "-- stale buckets show what they showed, after one image and after two"
mkdir stale && cd stale
printf '%s\n' "$table" "$hyper" "$view" "a: INSERT INTO m VALUES (50, 1, 5), (120, 1, 7), (250, 1, 9)" "$refresh" \
  "a: INSERT INTO m VALUES (121, 1, 1)" "r: REFRESH CUT 'c', 100, 200" "r: REFRESH SNAP 8" \
  "w: INSERT INTO m VALUES (122, 1, 10)" "r: REFRESH FINISH 8" | tsctl run | tail -n 1
cp tsctl.journal ../ten.journal
tsctl checkpoint
cp tsctl.journal ../saved.journal
printf '%s\n' "$query" "r: REFRESH FINISH 8" "$refresh" "$query" | tsctl run
cp ../saved.journal tsctl.journal
echo "w: INSERT INTO m VALUES (300, 1, 1)" | tsctl run
tsctl checkpoint
printf '%s\n' "$query" "$refresh" "$query" | tsctl run; cd ..

echo "-- par goes on behind an image too"
mkdir par && cd par
cp ../ten.journal tsctl.journal
tsctl checkpoint && printf '%s\n' "$query" "w: SELECT * FROM m" | tsctl par
cd ..

echo "-- the last position: no event comes behind it"
mkdir last && cd last
head -c 78 ../one/tsctl.journal >tsctl.journal
put 77 '\0' && put 32 '\0' && put 39 '\x40'
tsctl log
echo "a: CREATE TABLE n (time BIGINT)" | tsctl run; echo "status $?"
cd .. && mkdir before_last && cd before_last
printf '%s\n' "$table" "$hyper" "$view" "a: INSERT INTO m VALUES (120, 1, 7)" | tsctl run | tail -n 1
tsctl checkpoint
echo "-- its journal has 338 bytes: with one less it is damaged, and whole with a zero for it"
truncate -s 337 tsctl.journal && tsctl check 2>&1; echo "status $?"
truncate -s 338 tsctl.journal && tsctl check
put 157 '\xff\xff\xff\xff\xff\xff\xff\x3f'
tsctl log
echo "$refresh" | tsctl run; echo "status $?"
tsctl check
