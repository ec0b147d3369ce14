"""What a picture has: panels of lines over time, ranges that are marked, and words below. It draws nothing."""
from __future__ import annotations

from collections.abc import Sequence
from dataclasses import dataclass, field
from typing import Literal, NamedTuple

from .replies import Range
from .messages import Trouble

# Columns of one kind whose greatest values differ by more than this factor have panels of their own.
MOST_FACTOR = 10
# As many lines of a panel as looks can be told from each other.
COLORS, DASHES = 8, 6
MOST_LINES = COLORS * DASHES
MOST_NAMED = 4

Kind = Literal["stale", "dropped"]


class Column(NamedTuple):
    """A column that is drawn. Columns of one kind may share a panel: counts, or values of one unit."""

    name: str
    kind: str


class Row(NamedTuple):
    """A bucket of a list of keys: its start, its end, the keys as they are written, and the columns' values."""

    start: int
    end: int
    keys: tuple[str, ...]
    values: tuple[float | None, ...]


class Line(NamedTuple):
    """A line: its title, the number of its look, and pieces of points, between which it is broken."""

    title: str
    look: int
    pieces: list[list[tuple[int, float]]]


class Panel(NamedTuple):
    """Lines that share an axis of values, the name of the axis, and how many lines are too many to be drawn."""

    label: str
    lines: list[Line]
    undrawn: int = 0


class Mark(NamedTuple):
    """A range that is marked, from one time to another."""

    kind: Kind
    low: int
    high: int


class Word(NamedTuple):
    """A line of words below a picture: what a kind of marks means, or the watermark, or a note."""

    text: str
    kind: Kind | None = None
    is_note: bool = False


@dataclass(frozen=True)
class Picture:
    """A picture from `start` to `end`. Times are numbers of a unit since 1970, shown in a zone, if there is a unit."""

    title: str
    axis: str
    panels: list[Panel]
    start: int
    end: int
    marks: list[Mark] = field(default_factory=list)
    watermark: int | None = None
    unit: str | None = None
    zone: str = "UTC"
    words: list[Word] = field(default_factory=list)


# ---- lines


def pieces_of(points: list[tuple[int, int, float]]) -> list[list[tuple[int, float]]]:
    """The points of a line. A value holds from its bucket's start to its end, and the line is broken where none is."""
    pieces: list[list[tuple[int, float]]] = []
    last: int | None = None
    for start, end, value in points:
        if start != last:
            pieces.append([])
        pieces[-1] += [(start, value), (end, value)]
        last = end
    return pieces


def is_like(one: float, other: float) -> bool:
    """Whether two columns with these greatest values can be read by one axis."""
    return max(one, other) <= MOST_FACTOR * min(one, other) or 0 in (one, other)


def shared(columns: Sequence[Column], greatest: Sequence[float]) -> list[list[int]]:
    """The columns of each panel, by their places."""
    panels: list[list[int]] = []
    for place, column in enumerate(columns):
        for panel in panels:
            first = panel[0]
            if columns[first].kind == column.kind and is_like(greatest[first], greatest[place]):
                panel.append(place)
                break
        else:
            panels.append([place])
    return panels


def look_of(key: int, column: int, keys: int) -> int:
    """The number of a line's look: a list of keys has a color, and a column dashes; if there is one list, a column has
    both, so that lines that lie upon each other show."""
    if keys == 1:
        return column + COLORS * column
    rounds = -(-keys // COLORS)
    return key % COLORS + COLORS * (key // COLORS + column * rounds)


def title_of(column: str | None, names: Sequence[str], keys: Sequence[str]) -> str:
    """The title of a line: its column, if the panel has several, and its keys."""
    front = [] if column is None else [column]
    return ", ".join(front + [f"{name} {key}" for name, key in zip(names, keys)])


def panel_of(places: list[int], columns: Sequence[Column], names: Sequence[str], rows: list[Row]) -> Panel:
    """A panel with these columns: a line for each list of keys and each column."""
    points: dict[tuple[tuple[str, ...], int], list[tuple[int, int, float]]] = {}
    keys = list(dict.fromkeys(row.keys for row in rows))
    for row in rows:
        for place in places:
            value = row.values[place]
            if value is not None:
                points.setdefault((row.keys, place), []).append((row.start, row.end, value))
    lines: list[Line] = []
    undrawn = 0
    for number, key in enumerate(keys):
        for order, place in enumerate(places):
            found = points.get((key, place), [])
            if len(lines) == MOST_LINES:
                undrawn += bool(found)
            elif found:
                column = columns[place].name if len(places) > 1 or not names else None
                look = look_of(number, order, len(keys)) % MOST_LINES
                lines.append(Line(title_of(column, names, key), look, pieces_of(found)))
    return Panel(", ".join(columns[place].name for place in places), lines, undrawn)


def panels_of(columns: Sequence[Column], names: Sequence[str], rows: list[Row]) -> list[Panel]:
    """The panels of columns, whose rows have keys of these names."""
    greatest = [max((abs(row.values[place] or 0) for row in rows), default=0) for place in range(len(columns))]
    panels = [panel_of(places, columns, names, rows) for places in shared(columns, greatest)]
    if not any(panel.lines for panel in panels):
        raise Trouble("there is no value to draw: each is NULL")
    return panels


# ---- ranges


def marks_of(kind: Kind, ranges: list[Range], start: int, end: int) -> list[Mark]:
    """Ranges as marks of a picture, without what lies outside."""
    marks = [Mark(kind, start if low is None else max(low, start), min(high, end)) for low, high in ranges]
    return [mark for mark in marks if mark.low < mark.high]


def bounds_of(rows: list[Row], ranges: list[Range]) -> tuple[int, int]:
    """Where a picture begins and ends: it has all buckets and all ranges."""
    bounds = [bound for span in ranges for bound in span if bound is not None]
    low = min([row.start for row in rows] + bounds)
    high = max([row.end for row in rows] + bounds)
    if any(span[0] is None for span in ranges):
        low -= max(rows[0].end - rows[0].start, (high - low) // 20)
    return low, high


def widened(marks: list[Mark], least: float, start: float, end: float) -> list[tuple[float, float]]:
    """Marked ranges, each at least so long, as far as the picture goes; those that meet then are one."""
    spans: list[tuple[float, float]] = []
    for mark in sorted(marks, key=lambda mark: mark.low):
        more = max(0.0, least - (mark.high - mark.low)) / 2
        low = max(start, min(mark.low - more, end - least))
        high = min(end, max(mark.high + more, start + least))
        if spans and low <= spans[-1][1]:
            spans[-1] = spans[-1][0], max(high, spans[-1][1])
        else:
            spans.append((low, high))
    return spans
