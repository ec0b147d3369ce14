# Transcripts that are put together by hand, for scripts that audit them.

# A line and its reply; a session by its name, and what it said; and a transcript from a start on.
said() { printf '{"line":"%s","reply":"%s"}' "$1" "$2"; }
talk() { local name="$1" IFS=,; shift; printf '{"name":"%s","replies":[%s]}' "$name" "$*"; }
transcript() { local start="$1" IFS=,; shift; printf '{"sessions":[%s],"start":%s}\n' "$*" "$start"; }

# What an audit of standard input says in the folder in hand, behind its name; the same of the transcript in hand, as a
# script of sed changes it.
audited() {
  local line
  line="$(tsctl --in "$folder" audit)"
  echo "$1: $line, status $?"
}
forged() {
  sed "$2" <<<"$run" >changed
  if [ "$(cat changed)" = "$run" ]; then echo "$1: not forged"; else audited "$1" <changed; fi
}
