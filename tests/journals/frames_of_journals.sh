# Journals by their bytes, as docs/JOURNAL.md has them: one of two events that is cut anywhere, or has a byte changed. It
# counts up to its last open gate, and is damaged at an open gate that no whole frame with an event stands behind. A run
# over it reads the same, and leaves a journal that is damaged as it is.
set -uo pipefail

python3 - <<'END'
import pathlib
import subprocess

JOURNAL = pathlib.Path("tsctl.journal")
TABLE = b"\x0d\0\0\0" + b"\1\1m\2\4time\1\1v\0"
HYPER = b"\x11\0\0\0" + b"\2\0\0\0\0\0\0\0\0\x64\0\0\0\0\0\0\0"
BOTH = b"TSCTLJ01" + b"\1" + TABLE + b"\1" + HYPER + b"\0"


def told(word, journal):
    """What a call prints over a journal, and what it says on standard error."""
    JOURNAL.write_bytes(journal)
    ran = subprocess.run(["tsctl", word], stdin=subprocess.DEVNULL, capture_output=True, text=True)
    return ran.stdout, ran.stderr


def read(journal):
    """How many events `log` prints of a journal, or where it is damaged; a run has to read the same."""
    printed, said = told("log", journal)
    nothing, said_too = told("run", journal)
    if nothing or said != said_too or (said and JOURNAL.read_bytes() != journal):
        return "a run reads it otherwise"
    return said.removeprefix("tsctl: ").rstrip() or f"{len(printed.splitlines())} events"


def wanted(length):
    if length < 10:
        return "0 events"
    return "journal damaged at 8" if length < 27 else "journal damaged at 26" if length < 49 else "2 events"


cuts = [length for length in range(len(BOTH) + 1) if read(BOTH[:length]) == wanted(length)]
print(len(cuts), "of", len(BOTH) + 1, "cuts are read by their gates")

for place, byte, why in [
    (0, 0, "it begins as no journal"),
    (6, 0x31, "no such version"),
    (8, 0, "the first gate is closed"),
    (9, 36, "a frame that would end behind the file"),
    (12, 1, "a longer one"),
    (26, 2, "a byte that isn't 1 is a closed gate"),
    (27, 18, "the second frame would end behind the file"),
    (31, 8, "no event begins with 8"),
    (32, 1, "there is no table 1"),
    (36, 9, "the table has no column 9"),
    (48, 1, "an open gate with nothing behind it"),
    (48, 2, "a closed gate"),
]:
    changed = bytearray(BOTH)
    changed[place] = byte
    print(f"byte {place} is {byte}, {why}: {read(bytes(changed))}")
END
