# What `par json` prints: the transcript of a run, where it ends with status 0 or 1.
set -uo pipefail

# What a call prints, its status, and its line on standard error.
ends() {
  "$@" 2>said >printed
  echo "status $?: $(cat said)"
  cat printed
}

mkdir one damaged
echo "a: CREATE TABLE m (time BIGINT NOT NULL, v BIGINT)" >script
ends tsctl --in one par json <script

# A refusal is a reply. A line without a session, one with a byte outside of ASCII before its comment, and a blank one
# are in no session; a comment is in no line.
printf 'a: COMMIT\nno session\n\na: \xc3\xa9\nb: SELECT * FROM m -- \xc3\xa9\n' >refused
ends tsctl --in one par json <refused

# Nobody spoke; and a session that nobody answers alone.
ends tsctl --in one par json </dev/null
echo "no session" | ends tsctl --in one par json

# Escapes: a tab, a control character, quotes and a backslash.
printf 'a:\tCOMMIT\na: \001\na: "m"\na: \\\n' | ends tsctl --in one par json

# `setup` comes first and `final` last; the others as they appear.
printf 'final: BEGIN\nb: BEGIN\nsetup: BEGIN\na: BEGIN\nb: ROLLBACK\n' | ends tsctl --in one -- par json

# On any other status nothing is printed, but for what was written before a write failed.
tsctl --in one par json <script 2>&1 >/dev/full; echo "status $?"
cp "$TSCTL_TOP/tests/journals/magic_changed.journal" damaged/tsctl.journal
ends tsctl --in damaged par json <script
for words in "par text" "json par" "par json json" "run json"; do
  ends tsctl $words <script
done
tsctl --in one check
