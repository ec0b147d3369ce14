# `check` and `log` beside a run that is loading: each shows a history that stood for a moment, and no reader takes the
# frame that is just being written for damage. The run loads for as long as there are readers.
set -euo pipefail

load() {
  local n=0
  echo "a: CREATE TABLE load (time BIGINT NOT NULL, busy BIGINT)"
  echo "a: SELECT create_hypertable('load', 'time', chunk_time_interval => 100)"
  until [ "$n" -ge 600 ] && [ -e read ]; do
    n=$((n + 1))
    echo "a: INSERT INTO load VALUES ($n, 1), ($((n + 1)), 2), ($((n + 2)), 3), ($((n + 3)), 4), ($((n + 4)), 5)"
  done
}

mkfifo lines
tsctl run <lines >replies &
loading=$!
load >lines &
until [ -s replies ]; do sleep 0.01; done
failed=0
for _ in $(seq 10); do
  for word in check log; do
    tsctl "$word" >said || { echo "$word ended with status $?"; failed=$((failed + 1)); }
  done
done
touch read
wait "$loading"
[ "$failed" -gt 0 ] || echo "every reader ended with status 0"
[ "$(tsctl check)" = "HISTORY @$(wc -l <replies)" ] && echo "each reply has its event"
