# Journals, whole and damaged, by the reader of tools/tsq: it prints what `tsctl log` prints, and ends as it does. Those
# that differ are named.
set -uo pipefail
tsq="$TSCTL_TOP/tools/tsq"

for journal in "$TSCTL_TOP"/tests/journals/*.journal; do
  name="${journal%.journal}"
  wanted="$(cat "$name.status" 2>/dev/null || echo 0)"
  "$tsq" log "$journal" >log 2>said
  status=$?
  [ "$status" = "$wanted" ] && cmp -s <(cat log; sed "s/^tsq: /tsctl: /" said) "$name.out" || echo "$(basename "$name"): status $status, $(cat said)"
done
"$tsq" log "$TSCTL_TOP/tests/journals/column_that_is_not_there.journal" 2>&1 || echo "status $?"

# The journals of the examples have each kind of event.
for script in "$TSCTL_TOP"/examples/*.sql; do
  mkdir run
  (cd run && tsctl run <"$script" >/dev/null; tsctl log | cmp - <("$tsq" log)) || echo "$(basename "$script") differs"
  rm -r run
done
