"""Sends the rows of a file to tsctl, a block for each commit, and takes up a load that was broken off."""
from __future__ import annotations

import re
from collections.abc import Iterator
from pathlib import Path

from .intake import WAYS_ON, Intake
from .messages import Trouble
from .options import JOURNAL
from .programs import Ended, Program
from .replies import Reply
from .resume import BEGUN, FILE, FINISHED, Note, Notes, is_there, settle
from .statements import MOST_LINE

MOST_ROWS = 1000
COMMITTED = re.compile(r"COMMIT @(\d+) \+(\d+) -0")
BEGIN = re.compile(r"BEGIN @(\d+)")
# What a block takes beside its rows.
ROOM = 1 << 20


def statements(front: str, rows: list[str]) -> Iterator[str]:
    """INSERTs of rows, as many in each as fit."""
    items: list[str] = []
    size = len(front)
    for row in rows:
        if len(items) == MOST_ROWS or size + len(row) + 3 > MOST_LINE:
            yield front + ",".join(items)
            items, size = [], len(front)
        items.append(f"({row})")
        size += len(row) + 3
    if items:
        yield front + ",".join(items)


class Sender:
    """Commits blocks into a table of a folder. It holds the folder while it is open."""

    def __init__(self, folder: Path, table: str, time: str, session: str, is_once: bool) -> None:
        self.folder = folder
        self.table = table
        self.time = time
        self.session = session
        self.is_once = is_once
        self.program = Program(folder)

    def __enter__(self) -> Sender:
        return self

    def __exit__(self, *_: object) -> None:
        self.program.end()

    def ask(self, statement: str) -> Reply:
        """The reply to a statement."""
        return self.program.ask(f"{self.session}: {statement}".encode())

    def text(self, statement: str) -> str:
        """The one line of the reply to a statement."""
        return self.ask(statement).texts()[0]

    def position(self) -> int:
        """The position of the journal."""
        found = BEGIN.fullmatch(self.text("BEGIN READ ONLY"))
        if not found or self.text("COMMIT") != "END":
            raise Trouble("tsctl doesn't tell its position")
        return int(found[1])

    def make_room(self, rows: list[str]) -> bool:
        """Begins another run if this one can't take a block, since a run takes so many bytes. Gives whether it did."""
        size = sum(map(len, rows)) + 4 * len(rows) + ROOM
        if self.program.has_room(size):
            return False
        status = self.program.end()
        if status > 1:
            raise Ended(status)
        self.program = Program(self.folder)
        return True

    def commit(self, rows: list[str]) -> int:
        """Commits a block, and gives its position. If a statement is refused, nothing of it is."""
        self.require("BEGIN", "BEGIN")
        for statement in statements(f"INSERT INTO {self.table} VALUES ", rows):
            self.require(statement, "QUEUED")
        found = COMMITTED.fullmatch(self.text("COMMIT"))
        if not found or int(found[2]) != len(rows):
            raise Trouble("tsctl has committed another number of rows than it was given")
        return int(found[1])

    def require(self, statement: str, wanted: str) -> None:
        """Puts in a statement whose reply has to be this one, and gives the block up if it isn't."""
        text = self.text(statement)
        if text != wanted:
            self.text("ROLLBACK")
            raise Trouble(f"tsctl answers `{text}` to {statement[:60]}..; nothing of this block is committed")

    def present(self, low: int, high: int) -> set[str]:
        """The rows of the table between two times, both included."""
        bounds = f"{self.time} >= {low} AND {self.time} <= {high}"
        statement = f"{self.session}: SELECT * FROM {self.table} WHERE {bounds}"
        reply = self.program.ask(statement.encode(), keep_rows=lambda texts: [it.replace("|", ",") for it in texts])
        if reply.fault():
            raise Trouble(f"tsctl answers {reply.texts()[0]}")
        return set(reply.rows)


def check(sender: Sender, intake: Intake, notes: Notes) -> None:
    """That the journal has what the notes of earlier loads say, now that nobody else writes. What it tells of blocks
    that were on their way is noted."""
    position, journal = sender.position(), sender.folder / JOURNAL
    if Notes.read(sender.folder).of(sender.table) != notes.of(sender.table):
        raise Trouble("another load has gone on meanwhile: nothing is loaded, try again")
    for note in notes.of(sender.table):
        if note.state == BEGUN and settle(note, journal, position):
            notes.write(note)
    for note in intake.relied_on():
        if not is_there(note, journal, position):
            raise Trouble(
                f"{FILE} says that {note.name} was loaded up to @{note.commits[-1][1]}, and the journal has something "
                f"else there: it was put back, or is another one. Nothing is loaded; {WAYS_ON}"
            )
        if note.coming:
            raise Trouble(
                f"the journal has lost its event after @{note.coming.position}, so it can't be told how far the load "
                f"of {note.name} came. Nothing is loaded; {WAYS_ON}"
            )


def send(sender: Sender, blocks: Iterator[list[str]], at: int, note: Note, notes: Notes) -> None:
    """Commits the blocks from the one on that the note names. `at` is the place of the time in a row."""
    position = sender.position()
    for number, block in enumerate(blocks):
        if number < note.done:
            continue
        rows = new_rows(sender, block, at) if sender.is_once else block
        duplicates = len(block) - len(rows if sender.is_once else set(block))
        if not rows:
            note.done += 1
            note.duplicates += duplicates
            continue
        if sender.make_room(rows):
            position = sender.position()
        note.begin(position, rows, duplicates)
        notes.write(note)
        position = sender.commit(rows)
        note.take(position)
    note.state = FINISHED
    notes.write(note)


def new_rows(sender: Sender, block: list[str], at: int) -> list[str]:
    """The rows of a block that aren't in the table, each of them once."""
    times = [int(row.split(",", at + 1)[at]) for row in block]
    present = sender.present(min(times), max(times))
    return [row for row in dict.fromkeys(block) if row not in present]
