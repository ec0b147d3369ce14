# While a run goes on, another one in its folder is refused. `log` and `check` read what is there.
set -euo pipefail

# The first run waits for more lines, as it does at a terminal.
mkfifo lines
tsctl run <lines >replies &
exec 3>lines
echo "feed: CREATE TABLE load (time BIGINT NOT NULL, busy BIGINT)" >&3
until grep -qs TABLE replies; do sleep 0.05; done

status=0
echo "other: CREATE TABLE more (time BIGINT)" | tsctl run 2>&1 || status=$?
echo "status $status"
tsctl log

# It ends, and the next one may write.
exec 3>&-
wait
echo "other: CREATE TABLE more (time BIGINT)" | tsctl run
