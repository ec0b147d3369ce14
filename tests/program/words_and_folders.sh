# What stands before the program's own words: a folder to run in, help, the version; and what is said of a folder
# without a journal. Nothing is built for help and version.
set -uo pipefail
said() { sed "s|$PWD|HERE|g"; }

tsctl --help | head -n 1
tsctl --version | grep -c '^tsctl [0-9][0-9.]*$'

# The script is opened where the call is made, and the journal where it runs.
mkdir data
echo "a: CREATE TABLE load (time BIGINT NOT NULL, busy BIGINT)" >script.sql
tsctl --in data run <script.sql
ls data
tsctl --in data log
tsctl --in data -- check

# That folder is meant, whatever CDPATH says, and nothing is printed of where it is.
mkdir -p elsewhere/data
CDPATH="$PWD/elsewhere" tsctl --in data log

# A script is read from standard input.
tsctl run script.sql 2>&1 | head -n 1

# Without a journal there is an empty history, and standard error says so.
tsctl check 2>&1 | said
tsctl log 2>&1 | said
tsctl --in data check extra 2>&1; echo "status $?"

tsctl --in nowhere run </dev/null 2>&1; echo "status $?"
tsctl --in 2>&1; echo "status $?"

# A new folder is made once.
tsctl --new first run <"$TSCTL_TOP/examples/first.sql" | tail -n 1
tsctl --new first run <"$TSCTL_TOP/examples/first.sql" 2>&1; echo "status $?"
tsctl --new nowhere/first run </dev/null 2>&1; echo "status $?"
ls
