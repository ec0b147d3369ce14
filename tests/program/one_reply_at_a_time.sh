# Each reply is out before the next line is read: a program that talks to tsctl through two pipes sends a line only
# when it has the whole reply to the one before.
set -euo pipefail
mkfifo lines replies
tsctl run <lines >replies &
exec 3>lines 4<replies

# Sends a line, and prints it and its reply. An answer is followed by its rows and its stale ranges.
ask() {
  local reply words more
  echo "> $1"
  echo "$1" >&3
  read -r -t 60 reply <&4 || { echo "no reply"; exit 1; }
  echo "$reply"
  read -ra words <<<"$reply"
  [ "${words[1]}" = ANSWER ] || return 0
  for ((more = words[4] + words[6]; more > 0; more--)); do
    read -r -t 60 reply <&4 || { echo "no row"; exit 1; }
    echo "$reply"
  done
}

ask "feed: CREATE TABLE load (time BIGINT NOT NULL, busy BIGINT)"
ask "feed: SELECT create_hypertable('load', 'time', chunk_time_interval => 100)"
ask "feed: INSERT INTO load VALUES (5, 40), (15, 60)"
ask "watch: SELECT * FROM load"
ask "feed: INSERT INTO load VALUES (25, 50)"
ask "watch: SELECT time_bucket(10, time) AS start, avg(busy) FROM load GROUP BY start"
ask "watch: SELECT * FROM loads"
ask "watch: SELECT * FROM load WHERE busy > 45"

# At the end of its input it ends.
exec 3>&-
wait "$!" && echo "status 0" || echo "status $?"
