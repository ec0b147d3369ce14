"""A life of a database as a text: its steps, each a call of the program with what happens to it.

    $ run                               lines of standard input follow, each behind "> "
    $ run fault pwrite 3 3 error 5      the third write of the journal fails with the error 5
    $ run crash 17                      power cuts, at moments and with images of the journal that 17 chooses
    $ beside                            a run, in the middle of which `log`, `check` and another run are tried
    $ par, $ json                       `par` and `par json`, with the audit of the transcript
    $ audit fault read 2 2 error 5      the last transcript is audited again
    $ checkpoint, $ log, $ check        calls without input, which may have faults, and a checkpoint power cuts
    $ follow                            a copy that follows the journal answers the lines
    $ damage 5                          changed journals, chosen by 5, are read by log, check and run
    $ jump 4611686018427387900          the history goes on behind an image at that position

A byte that isn't plain ASCII is written as \\x and two digits, and a line that is too long to show as \\* with a count.
"""
import re
from dataclasses import dataclass, field, replace

REPEATED = re.compile(r"(x)\1{99,}")


@dataclass(frozen=True)
class Step:
    """One call: its word, what happens to it, and the lines of its input."""

    word: str
    how: str = ""
    lines: tuple[bytes, ...] = field(default=())

    @property
    def fault(self) -> str:
        """The plan of a fault, as faults.c reads it."""
        return self.how.removeprefix("fault ") if self.how.startswith("fault ") else ""

    @property
    def seed(self) -> int:
        """The number that chooses a crash, a damage or a position."""
        return int(self.how.split()[-1])

    def without(self, place: int) -> "Step":
        return replace(self, lines=self.lines[:place] + self.lines[place + 1 :])


Life = tuple[Step, ...]


def shown(line: bytes) -> str:
    text = line.decode("latin-1").encode("unicode_escape").decode("ascii")
    return REPEATED.sub(lambda found: f"\\*{len(found[0])};", text)


def read_line(text: str) -> bytes:
    text = re.sub(r"\\\*(\d+);", lambda found: "x" * int(found[1]), text)
    return text.encode("ascii").decode("unicode_escape").encode("latin-1")


def life_text(life: Life) -> str:
    found = []
    for step in life:
        found.append(" ".join(["$", step.word, step.how]).rstrip())
        found += [f"> {shown(line)}" for line in step.lines]
    return "".join(line + "\n" for line in found)


def read_life(text: str) -> Life:
    """The steps of a text. Lines that begin otherwise are comments."""
    steps: list[Step] = []
    for line in text.splitlines():
        if line.startswith("$ "):
            word, _, how = line[2:].partition(" ")
            steps.append(Step(word, how))
        elif line.startswith("> ") and steps:
            steps[-1] = replace(steps[-1], lines=(*steps[-1].lines, read_line(line[2:])))
    return tuple(steps)
