"""Checks the worked bytes of docs/JOURNAL.md: the program writes them, and reads those that the page has."""

import re
import subprocess
import sys
import tempfile
from pathlib import Path

from sources import TOP

PAGE = TOP / "docs" / "JOURNAL.md"
HEADER = b"TSCTLJ01"
BYTE = re.compile(r"[0-9a-f]{2}")


def blocks(title: str) -> list[str]:
    """Returns the blocks of code below a heading of the page, up to the next heading."""
    section = PAGE.read_text().split(f"\n### {title}\n", 1)[1]
    return re.findall(r"^```\n(.*?)^```$", re.split(r"^##", section, flags=re.M)[0], re.M | re.S)


def bytes_of(line: str) -> bytes:
    """Returns the bytes that a line begins with, which end where its words begin."""
    found = []
    for word in line.split():
        if not BYTE.fullmatch(word):
            break
        found.append(word)
    return bytes.fromhex("".join(found))


def by_places(block: str) -> bytes:
    """Returns the bytes of a block whose lines begin with their places."""
    journal = b""
    for line in block.splitlines()[1:]:
        place, rest = line.split(None, 1)
        if int(place) != len(journal):
            raise SystemExit(f"place {place} of the page is place {len(journal)}")
        journal += bytes_of(rest)
    return journal


def framed(payload: bytes) -> bytes:
    """Returns a payload that counts: a commit byte of 1, a length and the payload."""
    return b"\x01" + len(payload).to_bytes(4, "little") + payload


def tsctl(folder: str, word: str, text: str = "") -> str:
    """Returns what a call over the folder's journal prints."""
    done = subprocess.run(["tsctl", word], cwd=folder, input=text, capture_output=True, text=True, check=False)
    return done.stdout


def read_back(title: str, journal: bytes) -> None:
    """Prints what the program reads of a journal that the page has."""
    with tempfile.TemporaryDirectory() as folder:
        (Path(folder) / "tsctl.journal").write_bytes(journal)
        print(f"{title}, {len(journal)} bytes: {tsctl(folder, 'log') + tsctl(folder, 'check')}", end="")


def written(script: str) -> tuple[bytes, list[str]]:
    """Returns the journal that the program writes for a script, and its log."""
    with tempfile.TemporaryDirectory() as folder:
        tsctl(folder, "run", script)
        return (Path(folder) / "tsctl.journal").read_bytes(), tsctl(folder, "log").splitlines()


def places_of(payloads: list[bytes]) -> str:
    """Returns the places of the commit bytes before these payloads, and of the last one, as the page writes them."""
    places = [len(HEADER)]
    for payload in payloads:
        places.append(places[-1] + len(framed(payload)))
    *most, last, end = map(str, places)
    return f"{', '.join(most)} and {last}, and a commit byte of 0 at {end}"


def main() -> int:
    """Prints what is read of the worked journals, and whether the worked history is written as the page says."""
    read_back("the worked journal", by_places(blocks("A worked journal")[0]))
    read_back("with a base", by_places(blocks("A base")[0]))
    script, listing = blocks("A worked history")
    parts = [part.splitlines() for part in listing.strip().split("\n\n")]
    payloads = [b"".join(map(bytes_of, part)) for part in parts]
    wanted = HEADER + b"".join(map(framed, payloads)) + b"\x00"
    journal, log = written(script)
    logged = [part[0].split("  ")[-1].strip() for part in parts]
    print(f"the worked history, {len(wanted)} bytes, {len(payloads)} events:")
    print("the places are", "the same" if places_of(payloads) in PAGE.read_text() else f"others: {places_of(payloads)}")
    print("the bytes are", "the same" if journal[: len(wanted)] == wanted else "others")
    print("the log is", "the same" if log == logged else f"another: {log}, and not {logged}")
    return 0


if __name__ == "__main__":
    sys.exit(main())
