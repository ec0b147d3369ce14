# Payloads by their bytes, worked out by hand from docs/JOURNAL.md: which are an event or a saved image, and which are none.
# None is one whose last byte is missing, either, or that has a byte too many.
set -uo pipefail

python3 - <<'END'
import subprocess
from struct import pack


def journal(*payloads):
    return b"TSCTLJ02" + b"".join(b"\1" + pack("<I", len(payload)) + payload for payload in payloads) + b"\0"


def log(*payloads):
    """What `log` prints of the journal of these payloads, and what it says on standard error."""
    with open("tsctl.journal", "wb") as file:
        file.write(journal(*payloads))
    told = subprocess.run(["tsctl", "log"], capture_output=True, text=True)
    return told.stdout + told.stderr


def many(items):
    return pack("<I", len(items)) + b"".join(items)


TABLE = b"\1\1m\2\4time\1\1v\0"
HYPER = b"\2\0\0\0\0\0\0\0\0" + pack("<q", 100)
VIEW = b"\3\1c\0\0\0\0" + pack("<qq", 10, 2) + b"\1\1\0\0\0" + b"\1\6\1\0\0\0" + many([]) + b"\3\1b\1v\1x" + b"\1"
MODE = b"\4\0\0\0\0\0"
INSERT = b"\5\1\0\0\0" + b"\1\0\0\0\0\1\0\0\0" + pack("<q", -(2**62)) + b"\1\0"
DELETE = b"\5\1\0\0\0" + b"\2\0\0\0\0\1\0\0\0" + b"\1\0\0\0\x08" + pack("<q", 0)
CUT = b"\6\0\0\0\0" + pack("<qq", -8, 252)
BUILT = b"\7" + pack("<QQ", 7, 7)
EVENTS = [TABLE, HYPER, VIEW, MODE, INSERT, DELETE, CUT, BUILT]
print(log(*EVENTS), end="")

cuts = [EVENTS[:place] + [event[:size]] for place, event in enumerate(EVENTS) for size in range(len(event))]
cuts += [EVENTS[:place] + [event + b"\0"] for place, event in enumerate(EVENTS)]
for events in cuts:
    if log(*events) != f"tsctl: journal damaged at {len(journal(*events[:-1])) - 1}\n":
        print("not refused:", events)
print(len(cuts), "shorter or longer ones are refused")

for what, payload in {
    "kind 0": b"\0",
    "kind 9": b"\x09",
    "a flag of 2": b"\4\0\0\0\0\2",
    "a capital letter": b"\1\1M\0",
    "a capital letter behind another": b"\1\2nM\0",
    "a name of no letter": b"\1\0\0",
    "a name of 64 letters": b"\1\x40" + 64 * b"n" + b"\1\4time\0",
    "a width of 0": VIEW.replace(pack("<qq", 10, 2), pack("<qq", 0, 0)),
    "an offset as wide as its bucket": VIEW.replace(pack("<qq", 10, 2), pack("<qq", 10, 10)),
    "a window of nothing": b"\6\0\0\0\0" + pack("<qq", 2, 2),
    "a time below the least one": INSERT.replace(pack("<q", -(2**62)), pack("<q", -(2**62) - 1)),
    "a test on NULL with a number": DELETE.replace(pack("<q", 0), pack("<q", 1)),
}.items():
    print(f"{what}: {log(TABLE, HYPER, VIEW.replace(b'c', b'd', 1), payload).splitlines()[-1]}")


def image(position=9, start=112, mark=202, cut=8, done=5):
    """An image with buckets from 102 to 202 refreshed, bucket 112 dirty, a refresh that waits and one that was finished."""
    group = pack("<q", start) + b"\1" + pack("<q", 4) + pack("<QQqq", 2, 2, 8, 0) + 2 * (b"\1" + pack("<q", 4))
    view = many([pack("<qqQ", 102, 202, 6)]) + many([pack("<qq", 112, 122)]) + many([group]) + b"\1" + pack("<q", mark)
    waits, finished = many([pack("<QIqq", cut, 0, 102, 202)]), many([pack("<QQ", done, 6)])
    roster = many([pack("<I", len(event)) + event for event in [TABLE, HYPER, VIEW]])
    return b"\x08" + pack("<Q", position) + roster + many([]) + many([view]) + waits + finished


print(log(image()), end="")
for what, payload in {
    "a position below that of a refresh": image(position=7),
    "a position behind the last one": image(position=2**62 + 1),
    "a group of a clean bucket": image(start=122),
    "a group of no bucket": image(start=113),
    "a watermark before the end of a group": image(mark=112),
    "a watermark within a bucket": image(mark=203),
    "a cut behind the position": image(cut=10),
    "a cut of nothing": image(cut=0),
    "a cut that was finished": image(cut=5),
    "a finish before its cut": image(done=6),
}.items():
    print(f"{what}: {log(payload)}", end="")
shorter = [image()[:size] for size in range(1, len(image()), 3)] + [image()[:-1], image() + b"\0"]
print(sum(log(payload) == "tsctl: journal damaged at 8\n" for payload in shorter), "of", len(shorter), "shorter or longer ones are refused")
END
