# The 78 bytes of docs/JOURNAL.md with a saved image, cut and changed: what `log` prints of them, and how it ends. Then
# each cut, and each byte with another value: the program and the reader of tools/tsq agree.
set -uo pipefail

printf '\x54\x53\x43\x54\x4c\x4a\x30\x31\x01\x0d\0\0\0\x01\x01\x6d\x02\x04\x74\x69\x6d\x65\x01\x01\x76\0\0' >tsctl.journal
tsctl checkpoint
head -c 78 tsctl.journal >saved

# A byte of it set to another: place, byte.
changed() {
  cp saved tsctl.journal
  printf "$2" | dd of=tsctl.journal bs=1 seek="$1" conv=notrunc status=none
  echo "byte $1: $(tsctl log 2>&1; echo "status $?")"
}
changed 7 '\x31'
changed 7 '\x39'
changed 31 '\x09'
changed 13 '\x09'
changed 26 '\0'
changed 6 '\x31'
changed 40 '\x02'
head -c 77 saved >tsctl.journal
tsctl log 2>&1; echo "cut: status $?"

PYTHONPATH="$TSCTL_TOP/tools" python3 - <<'END'
import subprocess
from tsqlib.history import follow
from tsqlib.journal import Damaged

def read(file):
    """What the reader in Python makes of a file: the status, the lines, and what is said."""
    try:
        return 0, "".join(line + "\n" for _, _, line in follow(file)), ""
    except Damaged as damaged:
        return 6, "", f"tsctl: {damaged}\n"

saved = open("saved", "rb").read()
files = [saved[:size] for size in range(len(saved) + 1)]
files += [saved[:place] + bytes([(byte + 1) % 256]) + saved[place + 1 :] for place, byte in enumerate(saved)]
alike = 0
for file in files:
    open("tsctl.journal", "wb").write(file)
    told = subprocess.run(["tsctl", "log"], capture_output=True, text=True)
    if (told.returncode, told.stdout, told.stderr) == read(file):
        alike += 1
    else:
        print("differs:", file.hex(), told, read(file))
print(f"{alike == len(files) and 'all'} alike; {sum(read(file)[0] == 0 for file in files)} stand for a history")
END
