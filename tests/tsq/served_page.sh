# From a CSV file to a live page, and policies by wall time, as `docs/SERVE.md` describes them: its blocks of code are
# run, then the late row that it gives is inserted, and its hour refreshed.
set -euo pipefail
export PATH="$TSCTL_TOP/tools:$PATH" TSQ_TOKEN=secret

# The lines of code under a heading.
code() {
  awk -v heading="$1" '/^## / { inside = $0 == "## " heading; next } inside && /^```/ { is_code = !is_code; next } inside && is_code' \
    "$TSCTL_TOP/docs/SERVE.md"
}

cat >pumps.csv <<'CSV'
when,pump,celsius
2026-11-29 04:10,north,21.5
2026-11-29 05:20,north,22.5
2026-11-29 05:30,south,24.0
CSV
code "From a CSV file to a live page" | grep -vx "tsq serve" >steps
bash -e steps >replies
tail -n 1 replies

cat >ask.py <<'PYTHON'
"""Prints what a request gets: method, path, and body."""
import sys
from urllib.request import Request, urlopen

method, path, body = sys.argv[1:]
front = open("said").readline().split()[1].split("#")[0]
request = Request(front + path, body.encode() or None, {"Authorization": "Bearer secret"}, method=method)
print(urlopen(request, timeout=60).read().decode().rstrip("\n"))
PYTHON
ask() { python3 ask.py "$@"; }
stale() { ask GET aggregates/hours "" | grep -o '"stale": \[.*'; }

# Begins with these words, and waits until it has said where it is.
begin() {
  rm -f said
  tsq serve --port 0 "$@" </dev/null 2>said &
  until grep -qs http said; do sleep 0.05; done
}

# Ends it, and says how.
finish() {
  kill "$!"
  wait "$!" && echo "status 0" || echo "status $?"
}

begin
stale
ask POST sql "$(grep -o 'INSERT INTO readings VALUES ([^`]*)' "$TSCTL_TOP/docs/SERVE.md")"
stale
ask POST sql "CALL refresh_continuous_aggregate('hours', '2026-11-29 05:00', '2026-11-29 06:00')"
stale
finish

code "Policies by wall time" >lines
grep '^SELECT' lines >policies.sql
words="$(sed -n 's/^tsq serve //p' lines)"
# shellcheck disable=SC2086
begin $words
until ask GET state "" | grep -q '"ran":"'; do sleep 0.05; done
ask GET state "" | grep -o '"is_refused":[a-z]*'
finish
