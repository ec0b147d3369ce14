"""What was loaded into a folder, so that no input is loaded twice, and a load that was broken off goes on.

The file `tsctl.load`, beside the journal, has a line for each state of a load: an object of JSON. The last line of an
input counts. An input is known by its table, and by the number and the SHA-256 of its rows. So it is the same under
another name, and a file that has grown begins with it.

No line says that a block is committed before it is. Before a COMMIT is sent, a line says which block comes next, and
the position before it. If the load ends there, the journal tells whether the block was committed: the event after that
position has its rows, or hasn't.
"""
from __future__ import annotations

import fcntl
import hashlib
import json
import os
from collections.abc import Iterable, Iterator
from contextlib import contextmanager
from dataclasses import asdict, dataclass, field
from pathlib import Path
from typing import BinaryIO

from .history import History
from .journal import Commit, Event, Insert, Wrong
from .messages import Trouble
from .names import sync_folder
from .positions import event_at

FILE = "tsctl.load"
HEADER = b"tsctl.load 2\n"
# A longer file is written again, with the last lines of the inputs that came last.
MOST_SIZE = 1 << 23
MOST_KEPT = 1 << 22
BEGUN, FINISHED, GIVEN_UP = "begun", "finished", "given up"
Key = tuple[str, int, str]


@dataclass
class Block:
    """A block that is on its way: the position before it, its rows, those of them that are there more than once, and
    its sum."""

    position: int
    rows: int
    duplicates: int
    sum: str


@dataclass
class Note:
    """How far a load has come. `size` and `sum` tell the input by its rows, of which it loads those from `start` on,
    parted in a certain manner. `commits` are pairs of a first and a last position, and `last` is the sum of the block
    that was committed last."""

    name: str
    table: str
    size: int
    sum: str
    manner: str
    start: int = 0
    state: str = BEGUN
    done: int = 0
    rows: int = 0
    duplicates: int = 0
    commits: list[tuple[int, int]] = field(default_factory=list)
    last: str = ""
    coming: Block | None = None

    def key(self) -> Key:
        """What tells the input from others."""
        return self.table, self.size, self.sum

    def begin(self, position: int, rows: list[str], duplicates: int) -> None:
        """Takes that a block comes next."""
        self.coming = Block(position, len(rows), duplicates, sum_of_block(self.table, rows))

    def take(self, position: int) -> None:
        """Takes that the block which was to come was committed."""
        assert self.coming
        self.rows += self.coming.rows
        self.duplicates += self.coming.duplicates
        self.last = self.coming.sum
        self.done += 1
        self.coming = None
        if self.commits and self.commits[-1][1] == position - 1:
            self.commits[-1] = (self.commits[-1][0], position)
        else:
            self.commits.append((position, position))

    def has_rows(self) -> bool:
        """Whether rows of it may be in the table."""
        return self.state != GIVEN_UP or bool(self.commits) or self.coming is not None


def note_of(line: bytes) -> Note:
    """The note that a line has."""
    read = json.loads(line)
    read["commits"] = [(int(first), int(last)) for first, last in read["commits"]]
    read["coming"] = Block(**read["coming"]) if read["coming"] else None
    return Note(**read)


class Notes:
    """The notes of a folder, by their inputs, in the order in which they were written."""

    def __init__(self, folder: Path) -> None:
        self.path = folder / FILE
        self.notes: dict[Key, Note] = {}
        self.size = 0

    @classmethod
    def read(cls, folder: Path) -> Notes:
        """Those of a folder; without a file, none."""
        notes = cls(folder)
        try:
            notes.learn(notes.path.read_bytes())
        except FileNotFoundError:
            pass
        except OSError as error:
            raise Trouble(f"{notes.path}: {error.strerror}") from None
        return notes

    def learn(self, content: bytes) -> None:
        """Takes the whole lines of bytes that follow those already read."""
        if self.size == 0 and content.startswith(b"{"):
            self.learn_old(content)
            return
        end = content.rfind(b"\n") + 1
        lines = content[:end].split(b"\n")[:-1]
        if self.size == 0 and lines and lines.pop(0) + b"\n" != HEADER:
            raise Trouble(self.damaged())
        try:
            for note in map(note_of, lines):
                self.put(note)
        except (ValueError, TypeError, KeyError):
            raise Trouble(self.damaged()) from None
        self.size += end

    def learn_old(self, content: bytes) -> None:
        """Takes the file of version 0.15, which has the last load only, and doesn't tell its rows."""
        try:
            is_finished = json.loads(content)["is_finished"]
        except (ValueError, TypeError, KeyError):
            raise Trouble(self.damaged()) from None
        if not is_finished:
            raise Trouble(
                f"{self.path} is of a load that tsq 0.15 began and didn't end: end it by that version, or remove the "
                "file, and load with --once, which leaves out rows that are there"
            )

    def damaged(self) -> str:
        """What is said of a file that isn't whole."""
        return f"{self.path} is damaged: remove it, and load with --once, which leaves out rows that are there"

    def put(self, note: Note) -> None:
        """Takes a note as the last one."""
        self.notes.pop(note.key(), None)
        self.notes[note.key()] = note

    def of(self, table: str) -> list[Note]:
        """The notes of a table."""
        return [note for note in self.notes.values() if note.table == table]

    def write(self, note: Note) -> None:
        """Puts a note on the disk."""
        with self.locked() as file:
            self.put(note)
            line = line_of(note)
            if self.size == 0 or self.size + len(line) > MOST_SIZE:
                self.replace()
            else:
                file.write(line)
                file.flush()
                os.fsync(file.fileno())
                self.size += len(line)

    @contextmanager
    def locked(self) -> Iterator[BinaryIO]:
        """The file, held by this process only, once its new lines were read. A last line that is cut off is removed."""
        try:
            with open(os.open(self.path, os.O_RDWR | os.O_CREAT, 0o666), "r+b") as file:
                fcntl.flock(file, fcntl.LOCK_EX)
                file.seek(self.size)
                self.learn(file.read())
                if self.size:
                    file.truncate(self.size)
                    file.seek(self.size)
                yield file
        except OSError as error:
            raise Trouble(f"{self.path}: {error.strerror}") from None

    def replace(self) -> None:
        """Writes the file again, whole, in place of the one before it. If there is too much, the oldest loads that came
        to their end are left out."""
        notes = sorted(self.notes.values(), key=lambda note: note.state != FINISHED)
        lines: list[bytes] = []
        size = len(HEADER)
        for note in reversed(notes):
            line = line_of(note)
            if lines and size + len(line) > MOST_KEPT:
                break
            lines.append(line)
            size += len(line)
        new = self.path.with_suffix(".load_new")
        with open(new, "wb") as file:
            file.write(HEADER + b"".join(reversed(lines)))
            file.flush()
            os.fsync(file.fileno())
        os.replace(new, self.path)
        sync_folder(self.path.parent)
        self.size = size


def line_of(note: Note) -> bytes:
    """The line of a note."""
    return json.dumps(asdict(note)).encode() + b"\n"


def content_at(folder: Path, position: int) -> bytes | None:
    """The file of a folder as it was when the journal was at a position; nothing without a file. It is read after the
    journal, so later lines are left out. A damaged file, and that of version 0.15, stay as they are."""
    try:
        content = (folder / FILE).read_bytes()
    except FileNotFoundError:
        return None
    if not content.startswith(HEADER):
        return content
    kept: dict[Key, bytes] = {}
    try:
        for line in content.split(b"\n")[1:-1]:
            note = note_of(line)
            if is_known_at(note, position) or note.key() not in kept and not is_absent(note, position):
                kept.pop(note.key(), None)
                kept[note.key()] = line + b"\n"
    except (ValueError, TypeError, KeyError):
        return content
    return HEADER + b"".join(kept.values())


def is_known_at(note: Note, position: int) -> bool:
    """Whether a note tells nothing that is after a position of the journal."""
    last = note.commits[-1][1] if note.commits else 0
    return last <= position and (note.coming is None or note.coming.position <= position)


# ---- what the journal has of it


def sum_of_block(table: str, rows: Iterable[str]) -> str:
    """What tells a block from others: its table and its rows, in any order."""
    return hashlib.sha256("\n".join([table, *sorted(rows)]).encode()).hexdigest()


def sum_of_event(history: History, event: Event) -> str:
    """The sum of the block whose commit an event is; nothing if it is another event."""
    if not isinstance(event, Commit):
        return ""
    tables = {operation.table for operation in event.operations}
    rows: list[str] = []
    for operation in event.operations:
        if len(tables) > 1 or not isinstance(operation, Insert):
            return ""
        relation = history.tables[operation.table]
        rows += [row_text(row, relation.place()) for row in operation.rows]
    return sum_of_block(history.tables[tables.pop()].name, rows)


def row_text(row: list[int | None], place: int) -> str:
    """A row of a journal, which begins with its time, as a block has it: in the order of the declared columns."""
    declared = [*row[1 : place + 1], row[0], *row[place + 1 :]]
    return ",".join("null" if value is None else str(value) for value in declared)


def sum_at(journal: Path, position: int) -> str | None:
    """The sum of the block at a position of a journal, and nothing if the journal doesn't have that event any more."""
    try:
        found = event_at(journal, position)
        return sum_of_event(*found) if found else None
    except (Wrong, IndexError):
        return None


def settle(note: Note, journal: Path, position: int) -> bool:
    """Takes what the journal, which is at a position, tells of the block that was to come. Gives whether there was
    anything to take."""
    if note.coming is None or position < note.coming.position:
        return False
    found = "" if position == note.coming.position else sum_at(journal, note.coming.position + 1)
    if found is None:
        return False
    if found == note.coming.sum:
        note.take(note.coming.position + 1)
    note.coming = None
    return True


def is_absent(note: Note, position: int) -> bool:
    """Whether a journal that is at this position was begun again since a load, so that it has nothing of it."""
    first = note.commits[0][0] if note.commits else note.coming.position + 1 if note.coming else 0
    return first > position


def is_there(note: Note, journal: Path, position: int) -> bool:
    """Whether a journal that is at this position has what was committed last of a load, as far as it tells."""
    if not note.commits:
        return True
    last = note.commits[-1][1]
    return last <= position and sum_at(journal, last) in (None, note.last)
