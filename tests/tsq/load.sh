# CSV files as INSERTs by tools/tsq: dates, decimals and NULL, rows that come late, and cells that are no numbers.
set -euo pipefail
tsq="$TSCTL_TOP/tools/tsq"

cat >readings.csv <<'END'
when,place,device,celsius
2024-01-01T00:00:00Z,cellar,1,20.5
2024-01-01T00:01:00Z,cellar,1,-3.25
2024-01-01T02:02:00+02:00,attic,2,
2023-12-31T12:00:00Z,attic,2,1e1
2024-01-01T00:03:00Z,attic,2,21
END
load=("$tsq" load readings.csv --table readings --header --columns time,,device,celsius --times s)
"${load[@]}" --scale celsius=2 2>&1
"${load[@]}" --scale celsius=1 2>&1 || echo "status $?"

echo "1,2" | "$tsq" load - --table m --columns time 2>&1 || echo "status $?"
echo "1,two" | "$tsq" load - --table m --columns time,v 2>&1 || echo "status $?"
echo ",2" | "$tsq" load - --table m --columns time,v 2>&1 || echo "status $?"
echo "1,9223372036854775808" | "$tsq" load - --table m --columns time,v 2>&1 || echo "status $?"
echo "4611686018427387904;1" | "$tsq" load - --table m --columns time,v --delimiter ";" 2>&1 || echo "status $?"

# As many rows as fit into a statement: 1,000 here, and fewer where they are long.
seq -f "%.0f,1" 1 2500 >many.csv
"$tsq" load many.csv --table m --columns time,v | awk '{ print gsub(/\(/, "") - 1, length($0) <= 65536 }'
seq -f "4611686018427%.0f,-9223372036854775807,-9223372036854775807,-9223372036854775807" 100000 102000 >long.csv
"$tsq" load long.csv --table m --columns time,a,b,c | awk '{ print gsub(/\(/, "") - 1, length($0) <= 65536 }'

# Late rows that lie close together share a statement.
printf '%s,1\n' 100 110 120 50 130 55 10 140 105 >late.csv
"$tsq" load late.csv --table m --columns time,v 2>&1
"$tsq" load late.csv --table m --columns time,v --gap 100 2>/dev/null

# Rows that lie further apart than the gap, in a file of late rows alone too; a step back within the gap is none.
printf '%s,1\n' 0 60 30 3660 7200 7230 10000 9000 >hours.csv
"$tsq" load hours.csv --table m --columns time,v 2>&1
"$tsq" load hours.csv --table m --columns time,v --gap 3600 2>&1
"$tsq" load hours.csv --table m --columns time,v --gap 1000 2>&1
"$tsq" load hours.csv --table m --columns time,v --gap 0 2>&1 | wc -l

# A file from the latest row to the earliest: the rows behind the first one are late, and nothing parts them.
seq -f "%.0f,1" 2500 -1 1 >newest.csv
"$tsq" load newest.csv --table m --columns time,v 2>&1 >newest.sql
awk '{ print gsub(/\(/, "") - 1 }' newest.sql

# What is no date, and what is no number.
dates=("$tsq" load - --table m --columns time,v --times us)
echo "1612011531200,1" | "${dates[@]}" 2>&1 || echo "status $?"
echo "2024-01-01T00:00:00.1234569Z,1" | "${dates[@]}" 2>&1 || echo "status $?"
echo "2024-01-01 00:00:00.123456+01:30,1" | "${dates[@]}"
printf '1,1%099d\n' 0 | "$tsq" load - --table m --columns time,v 2>&1 || echo "status $?"

# Columns of the file that are exchanged, by their names, and cells that a tab parts.
printf 'time,pump,bar\n1,2,3\n' >named.csv
"$tsq" load named.csv --table m --columns time,bar,pump --header 2>&1 || echo "status $?"
"$tsq" load named.csv --table m --columns time,device,pressure --header
printf '1\t2\n' | "$tsq" load - --table m --columns time,v --delimiter '\t'
echo "2024-01-01,2" | "$tsq" load - --table m --columns time,v 2>&1 || echo "status $?"

# What is no CSV, and what the words ask for.
printf '1,"2\n' | "$tsq" load - --table m --columns time,v 2>&1 || echo "status $?"
echo "1,2" | "$tsq" load - --table m --columns time,v --session "x y" 2>&1 || echo "status $?"
echo "1,2" | "$tsq" load - --table m --columns time,v --time v --scale w=1 2>&1 || echo "status $?"
echo "1,2" | "$tsq" load - --table m --columns time,v --times s --scale time=3 2>&1 || echo "status $?"
echo "1,2" | "$tsq" load - --table m --columns time,v --gap -5 2>&1 | tail -n 1 || true
printf '1;2\r\n\r\n3;4\r\n' | "$tsq" load - --table m --columns time,v --delimiter ";" --time v

# Into a folder: the table's names and NOT NULL are looked at before anything runs, each part of time is a commit, and the
# folder remembers texts, scales and the unit of times.
tsctl run >/dev/null <<'SQL'
a: CREATE TABLE readings (celsius BIGINT, time BIGINT NOT NULL, device BIGINT NOT NULL)
a: SELECT create_hypertable('readings', 'time', chunk_time_interval => 86400)
SQL
cat >texts.csv <<'CSV'
Time,Device,celsius
2024-01-01T00:00:00Z,pump-a,20.5
2024-01-02T00:00:00Z, "pump-a",N/A
2024-01-01T00:00:00Z," pump-b",-0.25
2024-01-01T00:00:00Z,pump-b,-0.25
2024-01-02T12:00:00Z,,1
2024-01-02T12:00:00Z,pump-c,x
2024-01-02T12:00:00Z,pump-d
CSV
into=("$tsq" load texts.csv --table readings --into . --header --times s --scale celsius=2 --texts device)
"${into[@]}" 2>&1 || echo "status $?"
tsctl check
"${into[@]}" --null n/a --skip-broken aside.csv 2>&1
cat aside.csv tsctl.names
"${into[@]}" --null n/a --skip-broken aside.csv 2>&1 | tail -n 7
printf '2024-01-03 00:00,pump-e,1.25\n2024-01-02,pump-a,\n' >more.csv
"$tsq" load more.csv --table readings --into . --columns time,device,celsius --once 2>&1
"$tsq" load more.csv --table readings --into . --columns time,device,celsius --times ms 2>&1 || echo "status $?"
tsctl log
echo "a: SELECT * FROM readings" | tsctl run

# Each input is loaded once, whatever came since: under another name too, and of one that has grown only the rest.
"${into[@]}" --null n/a --skip-broken aside.csv 2>&1 | grep -e already -e commits
cp more.csv renamed.csv
printf '2024-01-04,pump-a,3\n' >>renamed.csv
for name in more renamed more; do
  "$tsq" load "$name.csv" --table readings --into . --columns time,device,celsius 2>&1 | grep -e already -e "^rows" -e commits
done
"$tsq" load more.csv --table readings --into . --columns time,device,celsius --again 2>&1 | grep -e already -e "^rows" -e commits
tsctl check

# JSON and line protocol.
cat >rows.ndjson <<'JSON'
{"ts": 1704240000, "device": "pump-a", "celsius": 1.50, "extra": {}}
{"ts": 1704240000, "device": "pump-a", "device": "pump-b"}
JSON
"$tsq" load rows.ndjson --table readings --columns time=ts,device,celsius --times s --epoch s --scale celsius=1 2>&1 || echo "status $?"
"$tsq" load rows.ndjson --table readings --into . --columns time=ts,device,celsius --epoch s --skip-broken /dev/null 2>&1
printf 'readings,device=pump\\ a celsius=2i 1704240000000000000\nother x=1\n' | "$tsq" load - --format influx --table readings --into . 2>&1

# A date in the hour that clocks show twice, and one in the hour that they leave out.
printf '2024-10-27 02:30,1\n' | "$tsq" load - --table m --columns time,v --times s --zone Europe/Berlin 2>&1
printf '2024-10-27 02:30,1\n' | "$tsq" load - --table m --columns time,v --times s --zone Europe/Berlin --doubled second 2>&1
printf '2024-03-31 02:30,1\n' | "$tsq" load - --table m --columns time,v --times s --zone Europe/Berlin 2>&1 || echo "status $?"
printf '1,2\n3,4\n' | "$tsq" load - --table m --columns time,v --header 2>&1 || echo "status $?"
printf 'Time,V,Dev\n1,2,3\n' | "$tsq" load - --table m --columns time,dev,v --header 2>&1 || echo "status $?"
