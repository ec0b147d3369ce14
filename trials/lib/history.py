"""Histories and their answers, as docs/MODEL.md defines them: a list of events, and answers by folding rows.

A row is a tuple of its time and the values of its other columns in declared order, so column 0 is the time. A moment
is a history at a position, with the operations of a write block as one commit on top.
"""
from bisect import bisect_right
from collections.abc import Callable, Iterator, Sequence
from dataclasses import dataclass, field
from math import gcd
from operator import eq, ge, gt, le, lt, ne
from typing import NamedTuple

LEAST_TIME, GREATEST_TIME = -(2**62), 2**62 - 1
LAST_POSITION = 2**62
COMPARES: dict[str, Callable[[int, int], bool]] = {
    "=": eq, "<>": ne, "<": lt, "<=": le, ">": gt, ">=": ge,
}
Value = int | None
Row = tuple[Value, ...]


class Mean(NamedTuple):
    """An average, in lowest terms."""

    over: int
    under: int

    def __str__(self) -> str:
        return f"{self.over}/{self.under}"


Cell = int | None | Mean
# What a bucket shows: for each list of keys the values of the functions.
Groups = dict[Row, tuple[Cell, ...]]


class Test(NamedTuple):
    column: int
    comparison: str
    number: int


class Function(NamedTuple):
    """An aggregate function over a column. That of `count(*)` is None."""

    name: str
    column: int | None


class Span(NamedTuple):
    """Times from the first one to below the second one."""

    low: int
    high: int


class Width(NamedTuple):
    """Buckets of a width, from an offset on."""

    step: int
    offset: int

    def start(self, time: int) -> int:
        return self.offset + self.step * ((time - self.offset) // self.step)

    def start_from(self, time: int) -> int:
        """The first start of a bucket that isn't below a time."""
        return self.start(time + self.step - 1)

    def end(self, time: int) -> int:
        return self.start(time) + self.step

    @property
    def all(self) -> Span:
        return Span(self.start(LEAST_TIME), self.end(GREATEST_TIME))

    def text(self, span: Span) -> str:
        """A range of buckets as replies print it."""
        return f"{'min' if span.low == self.all.low else span.low}..{span.high}"


# ---- events


class TableMade(NamedTuple):
    name: str
    columns: tuple[tuple[str, bool], ...]


class HyperMade(NamedTuple):
    table: int
    place: int
    interval: int


class ViewMade(NamedTuple):
    name: str
    table: int
    width: Width
    keys: tuple[int, ...]
    functions: tuple[Function, ...]
    tests: tuple[Test, ...]
    names: tuple[str, ...]
    only: bool


class ModeSet(NamedTuple):
    view: int
    only: bool


class Inserted(NamedTuple):
    table: int
    rows: tuple[Row, ...]


class Deleted(NamedTuple):
    table: int
    tests: tuple[Test, ...]


Operation = Inserted | Deleted


class Committed(NamedTuple):
    operations: tuple[Operation, ...]


class CutMade(NamedTuple):
    view: int
    span: Span


class Built(NamedTuple):
    cut: int
    snapshot: int


Event = TableMade | HyperMade | ViewMade | ModeSet | Committed | CutMade | Built


# ---- rows


def passes(row: Row, test: Test) -> bool:
    value = row[test.column]
    if test.comparison in ("IS NULL", "IS NOT NULL"):
        return (value is None) == (test.comparison == "IS NULL")
    return value is not None and COMPARES[test.comparison](value, test.number)


def passes_all(row: Row, tests: Sequence[Test]) -> bool:
    return all(passes(row, test) for test in tests)


def in_order(row: Sequence[Value]) -> tuple[tuple[bool, int], ...]:
    """The order of rows: NULL is greater than every number."""
    return tuple((value is None, value or 0) for value in row)


def shown(function: str, values: Sequence[Row], column: int | None) -> Cell:
    """A function over rows."""
    if column is None:
        return len(values)
    numbers = [number for row in values if (number := row[column]) is not None]
    if function == "count":
        return len(numbers)
    if not numbers:
        return None
    if function == "avg":
        shared = gcd(sum(numbers), len(numbers))
        return Mean(sum(numbers) // shared, len(numbers) // shared)
    return sum(numbers) if function == "sum" else min(numbers) if function == "min" else max(numbers)


def gather(
    rows: Sequence[Row], bucket: Callable[[int], int], keys: Sequence[int], tests: Sequence[Test]
) -> dict[int, dict[Row, list[Row]]]:
    """The rows that pass every test, by bucket and by keys."""
    gathered: dict[int, dict[Row, list[Row]]] = {}
    for row in rows:
        if passes_all(row, tests):
            groups = gathered.setdefault(bucket(row[0] or 0), {})
            groups.setdefault(tuple(row[key] for key in keys), []).append(row)
    return gathered


def fold(
    rows: Sequence[Row], bucket: Callable[[int], int], keys: Sequence[int], functions: Sequence[Function],
    tests: Sequence[Test],
) -> dict[int, Groups]:
    """The aggregation from scratch, by bucket and by keys."""
    return {
        start: {key: tuple(shown(it.name, of, it.column) for it in functions) for key, of in groups.items()}
        for start, groups in gather(rows, bucket, keys, tests).items()
    }


def lines_of(groups: dict[int, Groups]) -> list[Sequence[Cell]]:
    """The rows of an answer, by bucket and then by keys."""
    return [
        (start, *key, *cells)
        for start in sorted(groups)
        for key, cells in sorted(groups[start].items(), key=lambda group: in_order(group[0]))
    ]


# ---- histories


@dataclass
class Table:
    """A table, with its rows behind each commit to it and the least and greatest time that each commit touched."""

    name: str
    columns: tuple[tuple[str, bool], ...]
    place: int | None = None
    interval: int = 0
    at: list[int] = field(default_factory=lambda: [-1])
    rows: list[tuple[Row, ...]] = field(default_factory=lambda: [()])
    hulls: list[tuple[int, int] | None] = field(default_factory=lambda: [None])
    folds: dict[object, dict[int, Groups]] = field(default_factory=dict)

    @property
    def others(self) -> list[int]:
        """Declared places of the columns but for that of the time."""
        return [place for place in range(len(self.columns)) if place != self.place]

    def number_of(self, column: str) -> int | None:
        """The number of a column by its name: 0 is the time."""
        names = [name for name, _ in self.columns]
        if column not in names or self.place is None:
            return None
        place = names.index(column)
        return 0 if place == self.place else 1 + self.others.index(place)

    def declared(self, row: Row) -> Row:
        """The values of a row in declared order."""
        values = list(row[1:])
        values.insert(self.place or 0, row[0])
        return tuple(values)


@dataclass
class View:
    """An aggregate. Its mode is that of the last event that set it."""

    name: str
    table: Table
    made: ViewMade
    made_at: int
    modes: list[tuple[int, bool]]

    def only_at(self, position: int) -> bool:
        return [only for at, only in self.modes if at <= position][-1]


class Finished(NamedTuple):
    """A finished refresh: its event, its cut, its buckets, its snapshot, and the end of the last bucket with a row."""

    at: int
    cut: int
    view: View
    span: Span
    snapshot: int
    top: int | None


class Effect(NamedTuple):
    """What operations do to a table: its rows behind them, how many come and go, and the times of these."""

    rows: tuple[Row, ...]
    inserted: int
    removed: int
    times: list[int]


def effect(rows: tuple[Row, ...], operations: Sequence[Operation]) -> Effect:
    """What operations on one table do, each after the one before it."""
    here, inserted, times = list(rows), 0, []
    removed = 0
    for operation in operations:
        if isinstance(operation, Inserted):
            here = sorted([*here, *operation.rows], key=in_order)
            inserted += len(operation.rows)
            times += [row[0] or 0 for row in operation.rows]
        else:
            gone = [row for row in here if passes_all(row, operation.tests)]
            here = [row for row in here if not passes_all(row, operation.tests)]
            removed += len(gone)
            times += [row[0] or 0 for row in gone]
    return Effect(tuple(here), inserted, removed, times)


class History:
    """The events that there were, and what they come to. A position counts them, from a base on."""

    def __init__(self, base: int = 0) -> None:
        self.position = base
        self.events: list[tuple[int, Event]] = []
        self.tables: list[Table] = []
        self.tables_at: list[int] = []
        self.views: list[View] = []
        self.hypers_at: dict[int, int] = {}
        self.cuts: dict[int, tuple[View, Span]] = {}
        self.finished: list[Finished] = []

    def add(self, event: Event) -> int:
        """Appends an event, and gives its number."""
        self.position += 1
        self.events.append((self.position, event))
        getattr(self, f"add_{type(event).__name__.lower()}")(event)
        return self.position

    def add_tablemade(self, event: TableMade) -> None:
        self.tables.append(Table(event.name, event.columns))
        self.tables_at.append(self.position)

    def add_hypermade(self, event: HyperMade) -> None:
        table = self.tables[event.table]
        table.place, table.interval = event.place, event.interval
        self.hypers_at[event.table] = self.position

    def add_viewmade(self, event: ViewMade) -> None:
        table = self.tables[event.table]
        self.views.append(View(event.name, table, event, self.position, [(self.position, event.only)]))

    def add_modeset(self, event: ModeSet) -> None:
        self.views[event.view].modes.append((self.position, event.only))

    def add_committed(self, event: Committed) -> None:
        for number, table in enumerate(self.tables):
            operations = [it for it in event.operations if it.table == number]
            if operations:
                done = effect(table.rows[-1], operations)
                table.at.append(self.position)
                table.rows.append(done.rows)
                table.hulls.append((min(done.times), max(done.times)) if done.times else None)

    def add_cutmade(self, event: CutMade) -> None:
        self.cuts[self.position] = (self.views[event.view], event.span)

    def add_built(self, event: Built) -> None:
        view, span = self.cuts[event.cut]
        starts = [start for start in groups_at(view, event.snapshot) if span.low <= start < span.high]
        top = max(starts) + view.made.width.step if starts else None
        self.finished.append(Finished(self.position, event.cut, view, span, event.snapshot, top))

    def finished_by(self, cut: int, position: int) -> int | None:
        """The number of the event that finished a refresh."""
        return next((it.at for it in self.finished if it.cut == cut and it.at <= position), None)

    def is_waiting(self, cut: int, position: int) -> bool:
        return cut in self.cuts and cut <= position and self.finished_by(cut, position) is None

    # ---- what `tsctl log` and `tsctl check` print

    def log_line(self, number: int, event: Event) -> str:
        match event:
            case TableMade(name, columns):
                line = f"TABLE {name} " + " ".join(column + "!" * must for column, must in columns)
            case HyperMade(table, place, interval):
                line = f"HYPER {self.tables[table].name} {self.tables[table].columns[place][0]} {interval}"
            case ViewMade(name, table, width):
                line = f"VIEW {name} {self.tables[table].name} {width.step} {width.offset}"
            case ModeSet(view, only):
                line = f"MODE {self.views[view].name} {int(only)}"
            case Committed(operations):
                line = f"COMMIT ops {len(operations)}"
            case CutMade(view, span):
                line = f"CUT {self.views[view].name} {self.views[view].made.width.text(span)}"
            case Built(cut, snapshot):
                line = f"BUILT {cut} snap {snapshot}"
        return f"@{number} {line}\n"

    def log(self, base: int | None = None) -> str:
        """What `tsctl log` prints, with an image at the base."""
        head = "" if base is None else f"IMAGE @{base}\n"
        return head + "".join(self.log_line(at, event) for at, event in self.events if at > (base or 0))

    def check(self) -> str:
        """What `tsctl check` prints."""
        waiting = [
            f"PENDING {cut} {view.name} {view.made.width.text(span)}\n"
            for cut, (view, span) in sorted(self.cuts.items())
            if self.is_waiting(cut, self.position)
        ]
        return f"HISTORY @{self.position}\n" + "".join(waiting)


def rows_at(table: Table, position: int) -> tuple[Row, ...]:
    return table.rows[bisect_right(table.at, position) - 1]


def groups_at(view: View, position: int) -> dict[int, Groups]:
    """What stood in an aggregate's buckets at a position. It is folded once for each content of its table."""
    table, made = view.table, view.made
    version = bisect_right(table.at, position) - 1
    key = (made.name, version)
    if key not in table.folds:
        table.folds[key] = fold(table.rows[version], made.width.start, made.keys, made.functions, made.tests)
    return table.folds[key]


# ---- answers


class Answer(NamedTuple):
    rows: list[Sequence[Cell]]
    stale: list[str]


class Moment:
    """A history at a position, with a queue of operations as one commit on top."""

    def __init__(self, history: History, position: int, queue: Sequence[Operation] = ()) -> None:
        self.history, self.position, self.queue = history, position, queue

    # ---- what exists

    def table(self, name: str) -> tuple[int, Table] | None:
        for number, table in enumerate(self.history.tables):
            if table.name == name and self.history.tables_at[number] <= self.position:
                return number, table
        return None

    def view(self, name: str) -> tuple[int, View] | None:
        for number, view in enumerate(self.history.views):
            if view.name == name and view.made_at <= self.position:
                return number, view
        return None

    def is_taken(self, name: str) -> bool:
        return self.table(name) is not None or self.view(name) is not None

    def is_hypertable(self, number: int) -> bool:
        return self.history.hypers_at.get(number, LAST_POSITION + 1) <= self.position

    def count_tables(self) -> int:
        return sum(at <= self.position for at in self.history.tables_at)

    def count_views(self) -> int:
        return sum(view.made_at <= self.position for view in self.history.views)

    # ---- rows

    def effect(self, table: Table) -> Effect:
        """What the queue does to a table."""
        waiting = [it for it in self.queue if self.history.tables[it.table] is table]
        return effect(rows_at(table, self.position), waiting)

    def rows(self, table: Table) -> tuple[Row, ...]:
        return self.effect(table).rows

    def groups(self, view: View) -> dict[int, Groups]:
        """The aggregation from scratch of an aggregate's buckets."""
        if not self.queue:
            return groups_at(view, self.position)
        made = view.made
        return fold(self.rows(view.table), made.width.start, made.keys, made.functions, made.tests)

    # ---- refreshes

    def finished(self, view: View) -> list[Finished]:
        return [it for it in self.history.finished if it.view is view and it.at <= self.position]

    def watermark(self, view: View) -> int | None:
        """The greatest end of a bucket that a finished refresh covers and that had a row at its snapshot."""
        return max((it.top for it in self.finished(view) if it.top is not None), default=None)

    def last_refresh(self, view: View, start: int) -> int | None:
        """The latest snapshot of a finished refresh that covers a bucket."""
        spans = [it.snapshot for it in self.finished(view) if it.span.low <= start < it.span.high]
        return max(spans, default=None)

    def touches(self, view: View) -> Iterator[tuple[int, Span]]:
        """The buckets that each commit touched, with the number of the commit."""
        table, width = view.table, view.made.width
        for at, hull in zip(table.at, table.hulls):
            if hull and at <= self.position:
                yield at, Span(width.start(hull[0]), width.end(hull[1]))
        times = self.effect(table).times if self.queue else []
        if times:
            yield self.position + 1, Span(width.start(min(times)), width.end(max(times)))

    def is_stale(self, view: View, start: int, touches: Sequence[tuple[int, Span]]) -> bool:
        """Whether a bucket below the watermark was never refreshed, or touched after its last refresh."""
        last = self.last_refresh(view, start)
        return last is None or any(at > last and span.low <= start < span.high for at, span in touches)

    def stale_spans(self, view: View, asked: Span) -> list[Span]:
        """The stale buckets among those asked for, as ranges as long as can be."""
        mark = self.watermark(view)
        if mark is None:
            return []
        low, high = asked.low, min(asked.high, mark)
        touches = list(self.touches(view))
        spans = [span for _, span in touches] + [it.span for it in self.finished(view)]
        points = sorted({low, high} | {point for span in spans for point in span if low < point < high})
        found: list[Span] = []
        for start, end in zip(points, points[1:]):
            if low <= start < high and self.is_stale(view, start, touches):
                joins = bool(found) and found[-1].high == start
                found[-1:] = [Span(found[-1].low, end)] if joins else [*found[-1:], Span(start, end)]
        return found

    def window(self, view: View, low: int | None, high: int | None) -> Span:
        """The whole buckets of a window. It may be empty, with its end not above its start."""
        width = view.made.width
        start = width.all.low if low is None else width.start_from(low)
        if high is not None:
            return Span(start, width.start(high))
        rows, mark = self.rows(view.table), self.watermark(view)
        ends = [] if mark is None else [mark]
        if rows:
            ends.append(width.end(rows[-1][0] or 0))
        return Span(start, max(ends, default=start))

    # ---- answers

    def shown_groups(self, view: View, asked: Span) -> tuple[dict[int, Groups], list[Span]]:
        """What an aggregate shows of the buckets asked for, and the stale ones among these."""
        mark, stale = self.watermark(view), self.stale_spans(view, asked)
        is_only, now = view.only_at(self.position), self.groups(view)
        starts = set(now)
        for refresh in self.finished(view):
            starts |= set(groups_at(view, refresh.snapshot))
        found: dict[int, Groups] = {}
        for start in starts:
            if not asked.low <= start < asked.high:
                continue
            if any(span.low <= start < span.high for span in stale):
                last = self.last_refresh(view, start)
                groups = {} if last is None else groups_at(view, last).get(start, {})
            elif (mark is not None and start < mark) or not is_only:
                groups = now.get(start, {})
            else:
                groups = {}
            if groups:
                found[start] = groups
        return found, stale

    def answer_rows(self, table: Table, tests: Sequence[Test]) -> Answer:
        rows = [table.declared(row) for row in self.rows(table) if passes_all(row, tests)]
        return Answer(list(rows), [])

    def answer_view(self, view: View, tests: Sequence[tuple[str, int]]) -> Answer:
        groups, stale = self.shown_groups(view, asked_for(view.made.width, tests))
        return Answer(lines_of(groups), [view.made.width.text(span) for span in stale])

    def answer_rolled(
        self, view: View, width: Width, keys: Sequence[int], calls: Sequence[tuple[str, int]],
        tests: Sequence[Test],
    ) -> Answer:
        """A roll-up: keys, calls and tests name the output columns of the aggregate, from 1."""
        groups, stale = self.shown_groups(view, view.made.width.all)
        rows: list[Row] = [tuple(it if not isinstance(it, Mean) else None for it in line) for line in lines_of(groups)]
        functions = [Function(name, column) for name, column in calls]
        rolled = fold(rows, width.start, keys, functions, tests)
        spans: list[Span] = []
        for span in stale:
            wide = Span(width.start(span.low), width.start_from(span.high))
            joins = bool(spans) and spans[-1].high >= wide.low
            spans[-1:] = [Span(spans[-1].low, wide.high)] if joins else [*spans[-1:], wide]
        return Answer(lines_of(rolled), [width.text(span) for span in spans])


def asked_for(width: Width, tests: Sequence[tuple[str, int]]) -> Span:
    """The buckets whose starts pass tests."""
    low, high = width.all
    for comparison, number in tests:
        if comparison in (">", ">=", "="):
            low = max(low, width.start_from(number + (comparison == ">")))
        if comparison in ("<", "<=", "="):
            high = min(high, width.start_from(number + (comparison != "<")))
    return Span(low, high)
