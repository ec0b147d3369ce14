# How a call ends: its exit status, and what it says on standard error. The words of a call are taken as they are.
set -uo pipefail

# The status of a call, and its line on standard error.
ends() {
  "$@" 2>said >printed
  echo "status $?: $(cat said)"
}

mkdir fresh full gone damaged
echo "a: CREATE TABLE m (time BIGINT)" >script
echo "a: COMMIT" >refused

ends tsctl --in fresh run <script
ends tsctl --in fresh par <refused
ends tsctl --in full run </
head -c 9 full/tsctl.journal | od -An -c
ends tsctl --in full run <script

# A reply that can't be written: its statement stands.
tsctl --in gone run <script 2>&1 >/dev/full; echo "status $?"
tsctl --in gone check

# The file can't be opened; and it isn't one that the program writes.
rm full/tsctl.journal && mkdir full/tsctl.journal
ends tsctl --in full run <script
cp "$TSCTL_TOP/tests/journals/magic_changed.journal" damaged/tsctl.journal
ends tsctl --in damaged run <script
ends tsctl --in damaged log

# Words that ask for nothing: nothing is printed. Two dashes may stand before them once.
for words in "" demo "demo 007" "demo 1000000" "log check" "run run" Run "-- -- run"; do
  ends tsctl $words
  cat printed
done
ends tsctl --in fresh -- run <refused
ends tsctl --in fresh -- par <refused
