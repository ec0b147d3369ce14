# A run whose transcript is piped into its audit. The audit starts a second before the run does, and reads the journal once
# the transcript has ended, so it finds what the run wrote: also where there was no journal before.
set -uo pipefail

piped() {
  { sleep 1; tsctl --in one par json; } <"$1" | tee transcript | tsctl --in one audit
  echo "status $?"
}
mkdir one
printf "a: CREATE TABLE m (time BIGINT NOT NULL, v BIGINT)\na: SELECT create_hypertable('m', 'time', chunk_time_interval => 100)\n" >first
printf 'a: INSERT INTO m VALUES (5, 1)\nb: SELECT * FROM m\n' >second
piped first 2>/dev/null
piped second

# The same comes of the transcript once more. A run that answered nobody has no replies, and a text may be no transcript.
tsctl --in one audit <transcript
tsctl --in one par json </dev/null | tsctl --in one audit
tsctl --in one audit </dev/null; echo "status $?"
