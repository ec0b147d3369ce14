# What bin/tsctl says around the program, on standard error: what a line looks like, that a script runs a second time,
# and what a disk fault was. Standard output is the program's alone.
set -uo pipefail
said() { sed -E "s|$PWD|HERE|g; s|process [0-9]+|process N|"; }
# Both of a call, each by its name.
both() {
  "$@" >replies 2>notes
  local status=$?
  sed 's/^/out: /' replies
  said <notes | sed 's/^/err: /'
  echo "status $status"
}

echo "# SQL without session names: from a file, by a pipe, and over several lines"
printf '\n-- a comment\nCREATE TABLE m (time BIGINT)\nselect * from m\n' >bare.sql
both tsctl --in . run <bare.sql
printf '  Select 1\n' | both tsctl --in . run
printf 'a: CREATE TABLE m (\n time BIGINT)\n' | both tsctl --in . par
echo "# lines with names, whatever they are called"
printf 'select: CREATE TABLE m (time BIGINT, v BIGINT)\ncreate: INSERT INTO m VALUES (1, 2)\n' >named.sql
both tsctl --in . run <named.sql
printf 'insert: SELECT * FROM n\n' | both tsctl --in . run

echo "# a script that runs a second time, and one that makes another table"
both tsctl --in . run <named.sql
printf 'a: create  table M (time BIGINT)\n' >table.sql
both tsctl --in . run <table.sql
printf 'a: CREATE TABLE more (time BIGINT)\na: INSERT INTO more VALUES (7)\n' >other.sql
both tsctl --in . run <other.sql
both tsctl --in . par <other.sql

echo "# bytes go through a pipe as they are, with the last line as it is"
printf 'a: SELECT * FROM n -- \0\377\r\na: SELECT' >odd
both tsctl --in . run <odd >plain
both tsctl --in . run < <(cat odd) >piped
cmp plain piped && cat plain

echo "# a reply is there before the next line is given"
mkfifo lines
tsctl --in . run <lines >replies 2>notes &
exec 3>lines
for at in 1 2; do
  echo "a: SELECT count(*) FROM n" >&3
  for _ in $(seq 200); do [ "$(wc -l <replies)" -ge "$at" ] && break; sleep 0.05; done
  wc -l <replies
done

echo "# while that run holds the journal"
: >empty
both tsctl --in . run <empty
exec 3>&-
wait

echo "# without a journal that can be written"
mkdir -p other/tsctl.journal
both tsctl --in other run <empty

echo "# nothing is left, also if what a pipe gives hasn't ended when a program ends"
mkdir held
mkfifo more
tsctl --in other run <more >replies 2>notes &
exec 3>more
wait "$!"
echo "status $?"
pgrep -f "tee -p" -P $$ || echo "nothing is left"
exec 3>&-
