"""The bytes of a journal, as docs/JOURNAL.md describes them: frames, events, and the image of a history."""
import struct
from collections.abc import Callable, Sequence
from typing import NamedTuple

from history import (
    Built, Committed, CutMade, Deleted, Event, Function, HyperMade, History, Inserted, ModeSet, Moment, Operation, Row,
    Span, Table, TableMade, Test, Value, View, ViewMade, Width, gather, in_order, rows_at,
)

MAGIC = b"TSCTLJ0"
VERSION_WITH_BASE = b"2"
BASE = 8
COMPARISONS = ("=", "<>", "<", "<=", ">", ">=", "IS NULL", "IS NOT NULL")
FUNCTIONS = ("count(*)", "count", "sum", "min", "max", "avg")


class Damaged(Exception):
    """The file stands for no history. The place is the argument."""


class Contents(NamedTuple):
    """What a file stands for: its base, the payloads behind it, and the place of the gate that ends it."""

    base: bytes | None
    payloads: list[bytes]
    end: int


def read_file(file: bytes) -> Contents:
    """The payloads of a file that count."""
    if len(file) <= 9:
        return Contents(None, [], 8)
    if file[:7] != MAGIC:
        raise Damaged(0)
    gate, found = 8, []
    while file[gate] == 1:
        start = gate + 5
        end = start + int.from_bytes(file[gate + 1 : start], "little")
        if len(file) < start or len(file) <= end:
            raise Damaged(gate)
        found.append(file[start:end])
        gate = end
    bases = [at for at, payload in enumerate(found) if payload[:1] == bytes([BASE])]
    if file[7:8] == VERSION_WITH_BASE and bases:
        return Contents(found[bases[-1]], found[bases[-1] + 1 :], gate)
    return Contents(None, found, gate)


# ---- fields


def u8(number: int) -> bytes:
    return struct.pack("<B", number)


def u32(number: int) -> bytes:
    return struct.pack("<I", number)


def u64(number: int) -> bytes:
    return struct.pack("<Q", number)


def i64(number: int) -> bytes:
    return struct.pack("<q", number)


def text(name: str) -> bytes:
    return u8(len(name)) + name.encode()


def value(number: Value) -> bytes:
    return u8(0) if number is None else u8(1) + i64(number)


def few(items: list[bytes]) -> bytes:
    return u8(len(items)) + b"".join(items)


def many(items: list[bytes]) -> bytes:
    return u32(len(items)) + b"".join(items)


def row_bytes(row: Row) -> bytes:
    return i64(row[0] or 0) + few([value(it) for it in row[1:]])


def test_bytes(test: Test) -> bytes:
    return u32(test.column) + u8(1 + COMPARISONS.index(test.comparison)) + i64(test.number)


def function_bytes(function: Function) -> bytes:
    name = "count(*)" if function.column is None else function.name
    return u8(1 + FUNCTIONS.index(name)) + u32(function.column or 0)


def operation_bytes(operation: Operation) -> bytes:
    if isinstance(operation, Inserted):
        return u8(1) + u32(operation.table) + many([row_bytes(row) for row in operation.rows])
    return u8(2) + u32(operation.table) + many([test_bytes(test) for test in operation.tests])


def span_bytes(span: Span) -> bytes:
    return i64(span.low) + i64(span.high)


def event_bytes(event: Event) -> bytes:
    """The payload of an event."""
    match event:
        case TableMade(name, columns):
            return u8(1) + text(name) + few([text(column) + u8(must) for column, must in columns])
        case HyperMade(table, place, interval):
            return u8(2) + u32(table) + u32(place) + i64(interval)
        case ViewMade():
            return view_bytes(event)
        case ModeSet(view, only):
            return u8(4) + u32(view) + u8(only)
        case Committed(operations):
            return u8(5) + many([operation_bytes(it) for it in operations])
        case CutMade(view, span):
            return u8(6) + u32(view) + span_bytes(span)
        case Built(cut, snapshot):
            return u8(7) + u64(cut) + u64(snapshot)


def view_bytes(made: ViewMade) -> bytes:
    return (
        u8(3) + text(made.name) + u32(made.table) + i64(made.width.step) + i64(made.width.offset)
        + few([u32(key) for key in made.keys]) + few([function_bytes(it) for it in made.functions])
        + many([test_bytes(it) for it in made.tests]) + few([text(name) for name in made.names]) + u8(made.only)
    )


# ---- the image of a history


def joined(spans: list[tuple[Span, int]]) -> list[tuple[Span, int]]:
    """Ranges that meet and say the same become one."""
    found: list[tuple[Span, int]] = []
    for span, said in spans:
        if found and found[-1][0].high == span.low and found[-1][1] == said:
            found[-1] = (Span(found[-1][0].low, span.high), said)
        else:
            found.append((span, said))
    return found


def part_bytes(function: Function, rows: list[Row]) -> bytes:
    """What a group keeps of the values of a function's column. That of `count(*)` is column 0, the time."""
    numbers = [number for row in rows if (number := row[function.column or 0]) is not None]
    least, most = (min(numbers), max(numbers)) if numbers else (None, None)
    counts = u64(len(rows)) + u64(len(numbers)) + sum(numbers).to_bytes(16, "little", signed=True)
    return counts + value(least) + value(most)


def saved_view(moment: Moment, view: View) -> bytes:
    """The part of an image that keeps an aggregate."""
    finished, touches = moment.finished(view), list(moment.touches(view))
    spans = [span for _, span in touches] + [it.span for it in finished]
    points = sorted({point for span in spans for point in span})
    lasts: list[tuple[Span, int]] = []
    dirty: list[tuple[Span, int]] = []
    for start, end in zip(points, points[1:]):
        last = moment.last_refresh(view, start)
        if last is not None:
            lasts.append((Span(start, end), last))
            if moment.is_stale(view, start, touches):
                dirty.append((Span(start, end), 0))
    last_fields = [span_bytes(span) + u64(last) for span, last in joined(lasts)]
    dirty_fields = [span_bytes(span) for span, _ in joined(dirty)]
    groups = [field for span, last in lasts for field in saved_groups(view, span, last) if (span, 0) in dirty]
    return many(last_fields) + many(dirty_fields) + many(groups) + value(moment.watermark(view))


def saved_groups(view: View, span: Span, last: int) -> list[bytes]:
    """What a refresh has left in a range of dirty buckets."""
    made = view.made
    found = gather(rows_at(view.table, last), made.width.start, made.keys, made.tests)
    return [
        i64(start) + b"".join(value(it) for it in key) + b"".join(part_bytes(it, rows) for it in made.functions)
        for start, groups in sorted(found.items())
        if span.low <= start < span.high
        for key, rows in sorted(groups.items(), key=lambda group: in_order(group[0]))
    ]


def framed(events: Sequence[Event]) -> bytes:
    return many([u32(len(it)) + it for it in map(event_bytes, events)])


def image_bytes(history: History) -> bytes:
    """The image of a history at its end."""
    moment = Moment(history, history.position)
    roster: list[Event] = []
    for number, table in enumerate(history.tables):
        roster.append(TableMade(table.name, table.columns))
        if table.place is not None:
            roster.append(HyperMade(number, table.place, table.interval))
    roster += [view.made._replace(only=view.only_at(history.position)) for view in history.views]
    commits = [Committed((Inserted(n, table.rows[-1]),)) for n, table in enumerate(history.tables) if table.rows[-1]]
    waiting = [
        u64(cut) + u32(history.views.index(view)) + span_bytes(span)
        for cut, (view, span) in sorted(history.cuts.items())
        if history.is_waiting(cut, history.position)
    ]
    finished = [u64(it.cut) + u64(it.at) for it in sorted(history.finished, key=lambda it: it.cut)]
    return (
        u8(BASE) + u64(history.position) + framed(roster) + framed(commits)
        + many([saved_view(moment, view) for view in history.views]) + many(waiting) + many(finished)
    )


# ---- reading events


class Fields:
    """The fields of a payload, from left to right."""

    def __init__(self, payload: bytes) -> None:
        self.payload, self.at = payload, 0

    def take(self, form: str) -> int:
        number: int = struct.unpack_from(form, self.payload, self.at)[0]
        self.at += struct.calcsize(form)
        return number

    def u8(self) -> int:
        return self.take("<B")

    def u32(self) -> int:
        return self.take("<I")

    def u64(self) -> int:
        return self.take("<Q")

    def i64(self) -> int:
        return self.take("<q")

    def text(self) -> str:
        size = self.u8()
        self.at += size
        return self.payload[self.at - size : self.at].decode()

    def value(self) -> Value:
        return self.i64() if self.u8() else None

    def row(self) -> Row:
        return (self.i64(), *[self.value() for _ in range(self.u8())])

    def test(self) -> Test:
        return Test(self.u32(), COMPARISONS[self.u8() - 1], self.i64())

    def function(self) -> Function:
        name, column = FUNCTIONS[self.u8() - 1], self.u32()
        return Function("count", None) if name == "count(*)" else Function(name, column)

    def span(self) -> Span:
        return Span(self.i64(), self.i64())

    def operation(self) -> Operation:
        if self.u8() == 1:
            return Inserted(self.u32(), tuple(self.row() for _ in range(self.u32())))
        return Deleted(self.u32(), tuple(self.test() for _ in range(self.u32())))

    def view(self) -> ViewMade:
        return ViewMade(
            self.text(), self.u32(), Width(self.i64(), self.i64()), tuple(self.u32() for _ in range(self.u8())),
            tuple(self.function() for _ in range(self.u8())), tuple(self.test() for _ in range(self.u32())),
            tuple(self.text() for _ in range(self.u8())), bool(self.u8()),
        )


def read_event(payload: bytes) -> Event:
    """The event of a payload, which has to be one."""
    it = Fields(payload)
    kinds: dict[int, Callable[[], Event]] = {
        1: lambda: TableMade(it.text(), tuple((it.text(), bool(it.u8())) for _ in range(it.u8()))),
        2: lambda: HyperMade(it.u32(), it.u32(), it.i64()),
        3: it.view,
        4: lambda: ModeSet(it.u32(), bool(it.u8())),
        5: lambda: Committed(tuple(it.operation() for _ in range(it.u32()))),
        6: lambda: CutMade(it.u32(), it.span()),
        7: lambda: Built(it.u64(), it.u64()),
    }
    event = kinds[it.u8()]()
    if event_bytes(event) != payload:
        raise ValueError(f"these bytes are no event: {payload.hex()}")
    return event
