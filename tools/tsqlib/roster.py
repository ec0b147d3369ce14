"""What the journal of a folder tells of its tables and aggregates, beyond the names of columns, and of its commits.

It reads what came since, each time that it is asked, and a journal that another process writes as well.
"""
from __future__ import annotations

import struct
from pathlib import Path

from .follower import Moved, Source
from .frames import FIRST, Frame, frames, payload_of
from .history import History
from .image import roster_of
from .journal import BASE, COMMIT, HYPER, MODE, TABLE, VIEW, Commit, Damaged, Insert, Test, View, Wrong, event
from .messages import Trouble

MOST_ROSTER = 1 << 20
KINDS = {bytes([kind]) for kind in (TABLE, HYPER, VIEW, MODE)}
# The begin of a commit of one operation: its kind, how many operations, and the kind, the table and how many rows.
HEAD = struct.Struct("<BIBII")
ONE_OPERATION, INSERTS = 1, 1
# Of a row without NULL: its time, how many values, and so many bytes for each.
ROW_HEAD, VALUE = struct.Struct("<qB"), 9


def times_in(payload: bytes) -> tuple[int, list[int]] | None:
    """The table and the times of a commit that inserts rows without NULL and does nothing else: the usual one, whose
    rows are as long as each other."""
    if len(payload) < HEAD.size + ROW_HEAD.size:
        return None
    _, operations, kind, table, count = HEAD.unpack_from(payload)
    values = payload[HEAD.size + 8]
    size = ROW_HEAD.size + VALUE * values
    if (operations, kind) != (ONE_OPERATION, INSERTS) or len(payload) != HEAD.size + count * size:
        return None
    rows = memoryview(payload)[HEAD.size :]
    return table, [row[0] for row in struct.iter_unpack(f"<q{size - 8}x", rows)]


class Chunks:
    """The chunks of a table that have rows, by their numbers, with the greatest time in each; and the time up to which
    rows were dropped. Rows that another DELETE took away count as rows that are still there."""

    def __init__(self, interval: int) -> None:
        self.interval = interval
        self.greatest: dict[int, int] = {}
        self.until: int | None = None

    def insert(self, times: list[int]) -> None:
        """Takes the times of new rows."""
        if times and min(times) // self.interval == max(times) // self.interval:
            times = [max(times)]
        for time in times:
            chunk = time // self.interval
            self.greatest[chunk] = max(time, self.greatest.get(chunk, time))

    def delete(self, tests: list[Test]) -> None:
        """Takes rows away, if these tests are none at all, or are that of `drop_chunks`."""
        if not tests:
            self.greatest.clear()
        elif len(tests) == 1 and tests[0].column == 0 and tests[0].comparison == "<":
            self.drop(tests[0].number)

    def drop(self, end: int) -> None:
        """Takes the chunks away that end at or before a time. A DELETE of all rows before it is the same event."""
        if end % self.interval:
            return
        gone = [chunk for chunk in self.greatest if chunk < end // self.interval]
        last = max((self.greatest.pop(chunk) for chunk in gone), default=None)
        if last is not None:
            self.until = max(last + 1, self.until or last)


class Roster:
    """The tables and aggregates of a folder, and up to where the rows of each table were dropped."""

    def __init__(self, folder: str | Path) -> None:
        self.folder = folder
        self.source: Source | None = None
        self.forget()

    def forget(self) -> None:
        """Forgets all, since the journal is another one."""
        self.history = History()
        self.chunks: dict[int, Chunks] = {}
        self.inserted = 0

    def read(self) -> None:
        """Takes what came since. What can't be read, or isn't a journal, changes nothing."""
        try:
            source = self.current()
        except Trouble:
            return
        end = source.end
        try:
            for frame in frames(source.file, end) if source.length() > FIRST + 1 else ():
                self.learn(source.file, frame)
                end = frame.end
        except (Trouble, Damaged, Wrong, IndexError):
            pass
        if end > source.end:
            source.take(end)

    def current(self) -> Source:
        """The journal that was read so far, or from its beginning if that is another one now."""
        if self.source is not None:
            try:
                self.source.check()
                return self.source
            except Moved:
                pass
        new = Source(self.folder)
        if self.source is not None:
            self.source.close()
        self.source = new
        self.forget()
        return new

    def learn(self, file: int, frame: Frame) -> None:
        """Takes a definition, a commit, or the definitions of an image, which tells nothing of commits before it."""
        if frame.kind in KINDS:
            self.history.add(event(payload_of(file, frame, frame.size())))
        elif frame.kind == BASE[:1]:
            self.history = History()
            for relation in roster_of(payload_of(file, frame, MOST_ROSTER)):
                self.history.add(relation)
        elif frame.kind == bytes([COMMIT]):
            self.commit(payload_of(file, frame, frame.size()))

    def commit(self, payload: bytes) -> None:
        """Takes the rows and the drops of a commit."""
        if found := times_in(payload):
            self.insert(*found)
            return
        commit = event(payload)
        for operation in commit.operations if isinstance(commit, Commit) else []:
            if isinstance(operation, Insert):
                self.insert(operation.table, [row[0] for row in operation.rows])
            else:
                self.chunks_of(operation.table).delete(operation.tests)

    def insert(self, table: int, times: list[int]) -> None:
        """Takes the times of new rows."""
        self.inserted += len(times)
        self.chunks_of(table).insert(times)

    def chunks_of(self, table: int) -> Chunks:
        """The chunks of a hypertable."""
        if table not in self.chunks:
            hyper = self.history.tables[table].hyper
            self.chunks[table] = Chunks(hyper.interval if hyper else 1)
        return self.chunks[table]

    # ---- what is asked of it

    def kept_from(self, view: str) -> int | None:
        """The start of the first bucket of an aggregate after all rows that were dropped; none if none were."""
        found = self.view(view)
        until = self.chunks[found.table].until if found and found.table in self.chunks else None
        return None if found is None or until is None else until + (found.offset - until) % found.width

    def view(self, name: str) -> View | None:
        """The definition of an aggregate, if there is one of this name."""
        return next((it for it in self.history.views if it.name == name), None)
