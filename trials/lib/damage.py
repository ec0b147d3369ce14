"""Journals with changed bytes, read by the program and by the companion's reader, which was written from
docs/JOURNAL.md."""
import random
import sys
from collections import Counter
from collections.abc import Callable
from pathlib import Path

from program import TOP, call, folder

sys.path.insert(0, str(TOP / "tools"))
from tsqlib.history import follow  # noqa: E402
from tsqlib.journal import Damaged  # noqa: E402

CHANGES = 4


def commit_bytes(file: bytes) -> list[int]:
    """Where the commit bytes of a journal are, up to the closed one that ends it."""
    places = [8]
    while len(file) > places[-1] and file[places[-1]] == 1:
        places.append(places[-1] + 5 + int.from_bytes(file[places[-1] + 1 : places[-1] + 5], "little"))
    return places


def changed(rng: random.Random, file: bytes, places: list[int]) -> bytes:
    """A file with some bytes changed, or cut off: anywhere, or near the end of a frame."""
    new = bytearray(file)
    for _ in range(rng.choice([0, 1, 1, 2, 3])):
        new[rng.randrange(len(new))] = rng.choice([0, 1, 2, 8, 0x32, 255, rng.randrange(256)])
    if rng.random() < 0.3:
        end = rng.choice([rng.randrange(len(new) + 1), rng.choice(places) + rng.choice([0, 0, 1, 5, 6])])
        del new[end:]
    return bytes(new)


def read(file: bytes) -> tuple[int, str, str]:
    """What the companion's reader makes of a file: the status, the log, and what is said."""
    try:
        return 0, "".join(line + "\n" for _, _, line in follow(file)), ""
    except Damaged as damaged:
        return 6, "", f"tsctl: {damaged}\n"


def check_damage(
    command: Path, seed: int, journal: bytes, same: Callable[[str, object, object], None], seen: Counter[str]
) -> None:
    """Some changes of a journal. Damage is named by its place and stays as it is; what isn't damaged has its log."""
    rng, places = random.Random(seed), commit_bytes(journal)
    whole = journal[: places[-1] + 1]
    for _ in range(CHANGES if whole else 0):
        file = changed(rng, whole, places)
        status, log, said = read(file)
        with folder() as path:
            (Path(path) / "tsctl.journal").write_bytes(file)
            for word in ("log", "check", "run"):
                ran = call(command, [word], path)
                name = f"{word} of the damaged journal {file.hex()}"
                same(f"the status of {name}", (status, said), (ran.status, ran.err.decode()))
                if word == "log":
                    same(f"what is written by {name}", log, ran.out.decode())
            if status:
                same(f"the bytes behind {name}", file, (Path(path) / "tsctl.journal").read_bytes())
        seen[f"changed journal with status {status}"] += 1
