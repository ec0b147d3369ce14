"""Reads the bytes of a journal, by `docs/JOURNAL.md` alone: frames, and the event of each payload."""
from __future__ import annotations

import operator
import re
import struct
from collections.abc import Callable, Iterator
from functools import cache
from typing import Any, NamedTuple, TypeVar

from .packed import MOST_IN_PART, Row as Row, Rows

MAGIC, VERSION_2, BASE = b"TSCTLJ0", b"2", b"\x08"
LEAST_TIME, MOST_TIME = -(2**62), 2**62 - 1
NAME = re.compile(rb"[a-z_][a-z0-9_]{0,62}")
COMPARE = {
    "=": operator.eq, "<>": operator.ne, "<": operator.lt, "<=": operator.le, ">": operator.gt, ">=": operator.ge,
}  # fmt: skip
COMPARISONS = [*COMPARE, "IS NULL", "IS NOT NULL"]
FUNCTIONS = ["count(*)", "count", "sum", "min", "max", "avg"]
TABLE, HYPER, VIEW, MODE, COMMIT, CUT, BUILT = range(1, 8)
# The bytes of a file, or of a part of it, which may be mapped.
Bytes = bytes | memoryview
Item = TypeVar("Item")


class Damaged(Exception):
    """The file isn't a journal that tsctl writes. `place` is where that begins."""

    def __init__(self, place: int) -> None:
        super().__init__(f"journal damaged at {place}")
        self.place = place


class Wrong(Exception):
    """A payload isn't an event, or not one that may come next."""


class Test(NamedTuple):
    column: int
    comparison: str
    number: int

    def passed_by(self, row: Row) -> bool:
        """Whether a row passes. A comparison with NULL isn't true."""
        value = row[self.column]
        if "NULL" in self.comparison:
            return (value is None) == (self.comparison == "IS NULL")
        return value is not None and bool(COMPARE[self.comparison](value, self.number))


class Function(NamedTuple):
    name: str
    column: int


class Insert(NamedTuple):
    """Rows, each a list of its time and the other values in declared order."""

    table: int
    rows: Rows


class Delete(NamedTuple):
    table: int
    tests: list[Test]


class Table(NamedTuple):
    """A table, and its columns as pairs of a name and whether it is NOT NULL."""

    name: str
    columns: list[tuple[str, bool]]


class Hyper(NamedTuple):
    table: int
    place: int
    interval: int


class View(NamedTuple):
    name: str
    table: int
    width: int
    offset: int
    keys: list[int]
    functions: list[Function]
    tests: list[Test]
    names: list[str]
    only: bool

    def first(self) -> int:
        """The start of the first bucket, which is printed as `min`."""
        return LEAST_TIME - (LEAST_TIME - self.offset) % self.width


class Mode(NamedTuple):
    view: int
    only: bool


class Commit(NamedTuple):
    operations: list[Insert | Delete]


class Cut(NamedTuple):
    view: int
    start: int
    end: int


class Built(NamedTuple):
    cut: int
    snapshot: int


Event = Table | Hyper | View | Mode | Commit | Cut | Built


def payloads(file: Bytes) -> Iterator[tuple[int, memoryview]]:
    """Each payload that counts, of a file's bytes, with the place of its commit byte. A damaged file ends as
    Damaged."""
    if len(file) <= 9:
        return
    if file[:7] != MAGIC:
        raise Damaged(0)
    file = memoryview(file)
    yield from frames(file, last_base(file) if file[7:8] == VERSION_2 else 8)


def frames(file: memoryview, gate: int) -> Iterator[tuple[int, memoryview]]:
    """Each payload from this commit byte on, with the place of its own."""
    while file[gate] == 1:
        if len(file) < gate + 5:
            raise Damaged(gate)
        end = gate + 5 + int.from_bytes(file[gate + 1 : gate + 5], "little")
        if len(file) <= end:
            raise Damaged(gate)
        yield gate, file[gate + 5 : end]
        gate = end


def last_base(file: memoryview) -> int:
    """The commit byte of the last base, or the first one if there is none."""
    found = 8
    try:
        for gate, payload in frames(file, 8):
            if payload[:1] == BASE:
                found = gate
    except Damaged:
        pass
    return found


def is_base(file: Bytes, payload: Bytes) -> bool:
    """Whether a payload of a file's bytes is a saved image."""
    return file[7:8] == VERSION_2 and payload[:1] == BASE


@cache
def row_without_null(count: int) -> struct.Struct:
    """The bytes of a row with so many values beside its time, none of which is NULL."""
    return struct.Struct("<qB" + "Bq" * count)


U8, U32, U64, I64 = map(struct.Struct, ("<B", "<I", "<Q", "<q"))


class Fields:
    """The fields of a payload, taken from left to right. One that isn't there ends as Wrong."""

    def __init__(self, payload: Bytes) -> None:
        self.payload = payload
        self.at = 0

    def number(self, form: struct.Struct) -> int:
        try:
            (number,) = form.unpack_from(self.payload, self.at)
        except struct.error:
            raise Wrong from None
        self.at += form.size
        return int(number)

    def u8(self) -> int:
        return self.number(U8)

    def u32(self) -> int:
        return self.number(U32)

    def u64(self) -> int:
        return self.number(U64)

    def i64(self) -> int:
        return self.number(I64)

    def one_of(self, items: list[Item]) -> Item:
        """The item that a byte represents. The first one is 1."""
        number = self.u8()
        if not 1 <= number <= len(items):
            raise Wrong
        return items[number - 1]

    def flag(self) -> bool:
        number = self.u8()
        if number > 1:
            raise Wrong
        return number == 1

    def name(self) -> str:
        size = self.u8()
        name = bytes(self.payload[self.at : self.at + size])
        if len(name) < size or not NAME.fullmatch(name):
            raise Wrong
        self.at += size
        return name.decode()

    def few(self, item: Callable[[], Item]) -> list[Item]:
        return [item() for _ in range(self.u8())]

    def many(self, item: Callable[[], Item]) -> list[Item]:
        return [item() for _ in range(self.u32())]

    def value(self) -> int | None:
        return self.i64() if self.flag() else None

    def row(self) -> Row:
        """A row, whose values are read in place, since there are many."""
        row: Row = [self.i64()]
        if not LEAST_TIME <= row[0] <= MOST_TIME:
            raise Wrong
        count, payload, at = self.u8(), self.payload, self.at
        try:
            for _ in range(count):
                is_there, at = payload[at], at + 1
                if is_there == 1:
                    row.append(I64.unpack_from(payload, at)[0])
                    at += I64.size
                elif is_there == 0:
                    row.append(None)
                else:
                    raise Wrong
        except (IndexError, struct.error):
            raise Wrong from None
        self.at = at
        return row

    def rows(self) -> Iterator[Row]:
        """Rows of a table, which mostly are rows without NULL, one after the other."""
        left = self.u32()
        while left:
            found = self.rows_without_null(min(left, MOST_IN_PART))
            yield from found
            left -= len(found)
            if left:
                yield self.row()
                left -= 1

    def rows_without_null(self, most: int) -> list[Row]:
        """The rows up to the first one that has another count of values, or NULL, or isn't whole."""
        if len(self.payload) < self.at + 9:
            return []
        count = self.payload[self.at + 8]
        form = row_without_null(count)
        most = min(most, (len(self.payload) - self.at) // form.size)
        flags = (1,) * count
        rows: list[Row] = []
        for fields in form.iter_unpack(self.payload[self.at : self.at + most * form.size]):
            time = fields[0]
            if fields[1] != count or fields[2::2] != flags or not LEAST_TIME <= time <= MOST_TIME:
                break
            rows.append([time, *fields[3::2]])
        self.at += len(rows) * form.size
        return rows

    def test(self) -> Test:
        test = Test(self.u32(), self.one_of(COMPARISONS), self.i64())
        if "NULL" in test.comparison and test.number != 0:
            raise Wrong
        return test

    def function(self) -> Function:
        function = Function(self.one_of(FUNCTIONS), self.u32())
        if function.name == "count(*)" and function.column != 0:
            raise Wrong
        return function

    def operation(self) -> Insert | Delete:
        if self.one_of([True, False]):
            return Insert(self.u32(), Rows(self.rows()))
        return Delete(self.u32(), self.many(self.test))

    def table(self) -> Table:
        return Table(self.name(), self.few(lambda: (self.name(), self.flag())))

    def hyper(self) -> Hyper:
        return Hyper(self.u32(), self.u32(), self.i64())

    def view(self) -> View:
        return View(
            self.name(), self.u32(), self.i64(), self.i64(),
            self.few(self.u32), self.few(self.function), self.many(self.test), self.few(self.name), self.flag(),
        )  # fmt: skip

    def mode(self) -> Mode:
        return Mode(self.u32(), self.flag())

    def commit(self) -> Commit:
        return Commit(self.many(self.operation))

    def cut(self) -> Cut:
        return Cut(self.u32(), self.i64(), self.i64())

    def built(self) -> Built:
        return Built(self.u64(), self.u64())


def event(payload: Bytes) -> Event:
    """The event that a payload is."""
    fields = Fields(payload)
    kinds: list[Callable[[], Any]] = [
        fields.table,
        fields.hyper,
        fields.view,
        fields.mode,
        fields.commit,
        fields.cut,
        fields.built,
    ]
    read: Event = fields.one_of(kinds)()
    if fields.at != len(payload):
        raise Wrong
    return read
