# One tsctl that many share by tools/tsq serve: lines of standard input, statements and questions over HTTP, events,
# requests of Grafana, who is turned away, and how it ends.
set -euo pipefail
tsq="$TSCTL_TOP/tools/tsq"
export TSQ_TOKEN=secret

cat >ask.py <<'END'
"""Prints the status and the body that a request gets: method, path, body, and headers as `name: value`."""
import http.client
import sys

method, path, body, *headers = sys.argv[1:]
link = http.client.HTTPConnection("127.0.0.1", int(open("port").read()), timeout=60)
link.request(method, path, body or None, dict(header.split(": ") for header in headers))
answer = link.getresponse()
print(answer.status, answer.read().decode().rstrip("\n"))
END
token="Authorization: Bearer secret"
ask() { python3 ask.py "$@"; }

# None stays behind, however this script ends.
server=
trap '[ -z "$server" ] || kill -KILL "$server"' EXIT

# Waits until a file has a text, as long as the server is there.
await() {
  until grep -qs -e "$2" "$1"; do
    kill -0 "$server" || { cat said; exit 1; }
    sleep 0.05
  done
}

# Begins, with these words and what comes through the pipe `lines`.
begin() {
  # What an earlier one has said isn't taken for this one's.
  rm -f said replies
  mkfifo lines
  "$tsq" serve --port 0 --times s --scale mean=1 "$@" <lines >replies 2>said &
  server=$!
  exec 3>lines
  await said http
  sed -n 's/.*127\.0\.0\.1:\([0-9]*\).*/\1/p' said >port
}

# Ends it by a signal, and prints what it has said, without the port.
finish() {
  kill -s "$1" "$server"
  wait "$server" && echo "status 0" || echo "status $?"
  server=
  exec 3>&-
  rm lines
  sed 's/0\.0\.1:[0-9]*/0.0.1:PORT/' said
}

begin
cat >&3 <<'END'
feed: CREATE TABLE load (time BIGINT NOT NULL, host BIGINT, busy BIGINT)
feed: SELECT create_hypertable('load', 'time', chunk_time_interval => 86400)
feed: CREATE MATERIALIZED VIEW minutes WITH (timescaledb.continuous) AS SELECT time_bucket(60, time) AS minute, host, avg(busy) AS mean FROM load GROUP BY minute, host WITH NO DATA
feed: INSERT INTO load VALUES (1704067200, 1, 40), (1704067205, 1, 41), (1704067290, 2, 63), (1704067330, 2, NULL)
END
await replies "COMMIT @4"
cat replies

# A refresh from another session, a late row from standard input, and questions, for which no token is needed.
ask POST "/sql?session=night" "CALL refresh_continuous_aggregate('minutes', NULL, NULL)" "$token"
echo "feed: INSERT INTO load VALUES (1704067210, 1, 90)" >&3
await replies "COMMIT @7"
ask GET "/aggregates" ""
ask GET "/aggregates/minutes" ""
ask GET "/aggregates/minutes?from=2024-01-01T00:01:00Z&format=csv" ""
ask POST "/sql" "SELECT * FROM minutes WHERE minute = 1704067200" "Accept: text/csv"
ask GET "/pictures/minutes?columns=mean" ""

# A session's name is no part of a statement, what writes needs the token, and other sites are turned away.
ask POST "/sql?session=wall" "BEGIN
INSERT INTO load VALUES (1, 1, 1)" "$token"
ask POST "/sql?session=other" "wall: COMMIT" "$token" | cut -c 1-78
ask POST "/sql?session=wall" "COMMIT" | cut -c 1-78
ask POST "/sql?session=wall" "ROLLBACK" "$token"
ask POST "/sql" "DELETE FROM load"
ask GET "/state" "" "Host: elsewhere.example"
ask GET "/state" "" "Origin: http://elsewhere.example"

# What Grafana's JSON data sources ask.
range='"range": {"from": "2024-01-01T00:00:00.000Z", "to": "2024-01-01T00:03:00.000Z"}'
ask POST "/search" '{"target": ""}'
ask POST "/query" "{$range, \"maxDataPoints\": 100, \"targets\": [{\"target\": \"minutes.mean\", \"type\": \"timeserie\"}]}"
ask POST "/annotations" "{$range, \"annotation\": {\"name\": \"stale\", \"query\": \"minutes\"}}"
# All of it is read, since a request whose reply isn't would end with another status.
ask GET "/" "" >page
head -n 2 page
finish TERM

# What was acknowledged is there, and nobody writes in a read-only one.
tsctl check
begin --read-only
ask POST "/sql" "DELETE FROM load" "$token"
ask POST "/sql" "SELECT * FROM load WHERE host = 2" | cut -c 1-78
finish INT
