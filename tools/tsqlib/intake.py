"""The rows of an input as they come: those that were loaded before are left out, and others are parted into blocks."""
from __future__ import annotations

import hashlib
from dataclasses import dataclass

from .blocks import Parts
from .messages import Trouble
from .resume import BEGUN, FINISHED, GIVEN_UP, Note

# How a load treats rows that may be in the table: each input is loaded once; rows that are there are left out; an input
# is loaded again.
PLAIN, ONCE, AGAIN = "plain", "once", "again"
WAYS_ON = "--once leaves out rows that are there, --again loads all of them"
# Of the name of an input so many characters at its end are kept.
MOST_NAME = 200


@dataclass(frozen=True)
class Manner:
    """How an input is loaded: only a load in the same manner has the same blocks."""

    mode: str
    width: int
    gap: int | None

    def text(self) -> str:
        """As a note has it."""
        return f"{self.mode} {self.width} {self.gap}"


@dataclass
class Stretch:
    """Rows of an input that one load brings, with its note."""

    note: Note
    parts: Parts


class Intake:
    """Takes the rows of an input, with the notes of a table's earlier loads."""

    def __init__(self, name: str, table: str, manner: Manner, known: list[Note]) -> None:
        self.name = name
        self.table = table
        self.manner = manner
        self.known = known
        self.by_size: dict[int, list[Note]] = {}
        for note in known:
            self.by_size.setdefault(note.size, []).append(note)
        self.sum = hashlib.sha256()
        self.size = 0
        self.start = 0
        self.parts = Parts(manner.width)
        # Notes of inputs with which this one begins, and the one among them whose rows are left out.
        self.met: list[Note] = []
        self.before: Note | None = None
        self.stretches: list[Stretch] = []

    def __enter__(self) -> Intake:
        return self

    def __exit__(self, *_: object) -> None:
        for parts in [self.parts, *(stretch.parts for stretch in self.stretches)]:
            parts.close()

    def add(self, time: int, row: str) -> None:
        """Takes a row."""
        self.parts.add(time, row)
        self.sum.update(f"{row}\n".encode())
        self.size += 1
        if self.size in self.by_size:
            self.compare()

    def compare(self) -> None:
        """Looks whether the rows so far are a known input."""
        found = self.sum.hexdigest()
        for note in self.by_size[self.size]:
            if note.sum == found:
                self.met.append(note)
                self.meet(note)

    def meet(self, note: Note) -> None:
        """Takes that the rows so far are the input of a note."""
        mode = self.manner.mode
        if mode != ONCE and note.state == BEGUN and (note.manner, note.start) == (self.manner.text(), self.start):
            self.stretches.append(Stretch(note, self.parts))
            self.go_on()
        elif mode == PLAIN and note.state == FINISHED:
            self.leave_out(note)
        elif mode == PLAIN and note.state == BEGUN:
            begun = f"a load of {note.name} was broken off after {note.rows} rows"
            raise Trouble(f"{begun}: the same options continue it, and {WAYS_ON}")
        elif mode == PLAIN and note.has_rows():
            raise Trouble(f"a load of {note.name} was given up after {note.rows} rows: {WAYS_ON}")

    def leave_out(self, note: Note) -> None:
        """Leaves out all rows so far, which were loaded before."""
        self.before = note
        for parts in [self.parts, *(stretch.parts for stretch in self.stretches)]:
            parts.close()
        self.stretches.clear()
        self.go_on()

    def go_on(self) -> None:
        """Takes what follows apart from what came."""
        self.start = self.size
        self.parts = Parts(self.manner.width)

    # ---- when all was read

    def finish(self) -> None:
        """Takes that all rows were read. A load of the same file that was broken off must be a part of this one."""
        if self.start < self.size:
            name, found = self.name[-MOST_NAME:], self.sum.hexdigest()
            note = Note(name, self.table, self.size, found, self.manner.text(), self.start)
            self.stretches.append(Stretch(note, self.parts))
        others = [note for note, state in self.replaced() if state == GIVEN_UP]
        if self.manner.mode == PLAIN and others:
            begun = f"a load of {self.name} was broken off after {others[0].rows} rows"
            raise Trouble(f"{begun}, and the file has other rows now: {WAYS_ON}")

    def replaced(self) -> list[tuple[Note, str]]:
        """The loads that were broken off and that this one replaces, with their states once it has come to its end: it
        has all of their rows, or is another load of the same file."""
        found = []
        for note in self.begun():
            if any(note is met for met in self.met):
                found.append((note, FINISHED))
            elif note.name == self.name[-MOST_NAME:]:
                found.append((note, GIVEN_UP))
        return found

    def relied_on(self) -> list[Note]:
        """The notes by which rows are left out."""
        return [*([self.before] if self.before else []), *(stretch.note for stretch in self.stretches)]

    def begun(self) -> list[Note]:
        """The loads that were broken off and that this one doesn't continue."""
        keys = {stretch.note.key() for stretch in self.stretches}
        return [note for note in self.known if note.state == BEGUN and note.key() not in keys]

    def elsewhere(self) -> list[Note]:
        """Loads into the table that were broken off, and that this one leaves as they are."""
        replaced = [note for note, _ in self.replaced()]
        return [note for note in self.begun() if note not in replaced]
