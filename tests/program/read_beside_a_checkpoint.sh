# `check`, `log` and `audit` beside the first `checkpoint` of a journal, which makes it one of version 2. A reader is
# stopped on its way, the image is written meanwhile, and the reader goes on: it takes the image as one, and not for
# damage. It is stopped a little later each time, since nothing says how far it has come.
set -euo pipefail

{
  echo "a: CREATE TABLE load (time BIGINT NOT NULL, busy BIGINT)"
  echo "a: SELECT create_hypertable('load', 'time', chunk_time_interval => 1000)"
  for n in $(seq 1 100); do
    rows="$(seq -f "(%.0f, $n)" -s ", " "$((n * 500))" "$((n * 500 + 499))")"
    echo "a: INSERT INTO load VALUES $rows"
  done
} >load.sql
tsctl run <load.sql >replies
cp tsctl.journal loaded
echo '{"sessions":[],"start":102}' >transcript

failed=0
for word in check log audit; do
  for later in $(seq -f "0.%03.0f" 2 6 26); do
    cp loaded tsctl.journal
    tsctl "$word" <transcript >said 2>&1 &
    reader=$!
    sleep "$later"
    # It may have ended by then.
    kill -STOP "$reader" 2>/dev/null || true
    tsctl checkpoint >/dev/null
    kill -CONT "$reader" 2>/dev/null || true
    wait "$reader" || { echo "$word ended with status $?: $(tail -n 1 said)"; failed=$((failed + 1)); }
  done
done
[ "$failed" -gt 0 ] || echo "every reader ended with status 0"
tsctl check
