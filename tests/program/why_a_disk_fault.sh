# `tsctl why` says why a run in a folder ends with a disk fault, and changes nothing.
set -uo pipefail
# What it says, without what differs from one machine to the next.
why() {
  tsctl "$@" why | sed "s|$PWD|HERE|g; s|^permissions: [^ ]* |permissions: USER |; s|; [0-9]* KiB are free||; s| (process [0-9]*)||; s|process [0-9]* writes|process N writes|"
  echo "status ${PIPESTATUS[0]}"
}

mkdir data
why --in data
echo "a: CREATE TABLE load (time BIGINT)" | tsctl --in data run
cp data/tsctl.journal before
why --in data
cmp before data/tsctl.journal && ls -A data

# While another run holds the journal:
mkfifo lines
tsctl --in data run <lines >replies &
exec 3>lines
echo "feed: CREATE TABLE more (time BIGINT)" >&3
until grep -qs TABLE replies; do sleep 0.05; done
tsctl --in data run </dev/null 2>&1 | sed "s|$PWD|HERE|g; s|process [0-9]*|process N|"; echo "status ${PIPESTATUS[0]}"
why --in data
exec 3>&-
wait

# If bytes have changed since the last copy, and if the commit byte of an event was changed, which ends the journal there:
cp -r data changed
"$TSCTL_TOP/tools/tsq" backup changed copy
printf 'r' | dd of=changed/tsctl.journal bs=1 seek=15 conv=notrunc status=none
why --in changed
cp -r data changed2
{ printf '\000' | dd of=changed2/tsctl.journal bs=1 seek=8 conv=notrunc; } 2>/dev/null
why --in changed2

# Where the journal is no file, or a link to nothing:
mkdir -p other/tsctl.journal
tsctl --in other run </dev/null 2>&1; echo "status $?"
why --in other
rmdir other/tsctl.journal
ln -s gone/tsctl.journal other/tsctl.journal
tsctl --in other run </dev/null 2>&1; echo "status $?"
why --in other

# Where a file may not grow as far as the journal does:
mkdir small
(ulimit -f 64; why --in small)

# Where the journal is damaged, which a run says with another line:
mkdir wrong
cp before wrong/tsctl.journal
printf '\001' | dd of=wrong/tsctl.journal bs=1 seek=8 conv=notrunc status=none
truncate -s 20 wrong/tsctl.journal
tsctl --in wrong run </dev/null 2>&1; echo "status $?"
why --in wrong
