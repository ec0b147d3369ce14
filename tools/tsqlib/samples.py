"""Thins the rows of a long answer out for a picture, as they come: of each cell of time four values stay."""
from __future__ import annotations

from collections import deque
from collections.abc import Iterable, Sequence

Point = tuple[int, float]
Keys = tuple[str, ...]
MOST_LINES = 24
# Lists of keys that aren't drawn are counted up to here.
MOST_OTHERS = 1000


class Cell:
    """The first, the least, the greatest and the last point of a stretch of time. A point is a time and a value."""

    __slots__ = ("first", "least", "greatest", "last")

    def __init__(self, point: Point) -> None:
        self.first = self.least = self.greatest = self.last = point

    def take(self, point: Point) -> None:
        """Takes a later point."""
        if point[1] < self.least[1]:
            self.least = point
        if point[1] > self.greatest[1]:
            self.greatest = point
        self.last = point

    def append(self, other: Cell) -> None:
        """Takes all of a later cell."""
        if other.least[1] < self.least[1]:
            self.least = other.least
        if other.greatest[1] > self.greatest[1]:
            self.greatest = other.greatest
        self.last = other.last

    def points(self) -> list[Point]:
        """Its points by time, each once."""
        return sorted({self.first, self.least, self.greatest, self.last})


def number_of(text: str, divisor: int) -> float:
    """The value of a cell of an answer, divided by a number."""
    if "/" not in text:
        return int(text) / divisor
    number, _, own = text.partition("/")
    return int(number) / (int(own) * divisor)


def in_order(keys: Keys) -> list[tuple[bool, int]]:
    """Keys as they are ordered: NULL is greater than every number."""
    return [(key == "null", 0 if key == "null" else int(key)) for key in keys]


class Line:
    """A line of a picture: for each column its cells, by their numbers."""

    __slots__ = ("columns",)

    def __init__(self, count: int) -> None:
        self.columns: list[dict[int, Cell]] = [{} for _ in range(count)]

    def widen(self) -> None:
        """Makes of each two cells one."""
        self.columns = [wider(cells) for cells in self.columns]

    def points(self) -> list[list[Point]]:
        """The points of each column by time."""
        return [[point for cell in cells.values() for point in cell.points()] for cells in self.columns]


def wider(cells: dict[int, Cell]) -> dict[int, Cell]:
    """Cells of which each takes two."""
    found: dict[int, Cell] = {}
    for number, cell in cells.items():
        if number // 2 in found:
            found[number // 2].append(cell)
        else:
            found[number // 2] = cell
    return found


class Samples:
    """The lines of a picture, one for each list of keys, of the rows of an aggregate, which come by time.

    `columns` has the place of each column that is drawn, and by which power of ten its values are divided. A cell is
    as wide as a bucket at first, and twice as wide each time that there are too many. If lists of keys are `wanted`,
    only those are lines.
    """

    def __init__(
        self, keys: int, columns: Sequence[tuple[int, int]], width: int, most_cells: int, last_rows: int = 0,
        wanted: set[Keys] | None = None,
    ) -> None:  # fmt: skip
        self.keys = keys
        self.columns = [(place, int(10**power)) for place, power in columns]
        self.bucket = self.width = width
        self.most_cells = most_cells
        self.last_rows = last_rows
        self.wanted = wanted
        self.lines: dict[Keys, Line] = {}
        # Lists of keys that aren't drawn, in the order in which they came.
        self.others: dict[Keys, None] = {}
        self.cells = 0
        self.last_cell: int | None = None
        self.count = 0

    def take(self, texts: Iterable[str]) -> list[list[str]]:
        """Takes all rows of an answer, and gives the last ones."""
        last: deque[list[str]] = deque(maxlen=self.last_rows)
        for text in texts:
            row = text.split("|")
            last.append(row)
            self.add(row)
        return list(last)

    def add(self, row: list[str]) -> None:
        """Takes the next row."""
        self.count += 1
        line = self.line_of(tuple(row[1 : 1 + self.keys]))
        if line is None:
            return
        at = int(row[0])
        number = at // self.width
        if number != self.last_cell:
            number = self.begin_cell(at)
        for cells, (place, divisor) in zip(line.columns, self.columns):
            if (text := row[place]) == "null":
                continue
            point = at, number_of(text, divisor)
            if cell := cells.get(number):
                cell.take(point)
            else:
                cells[number] = Cell(point)

    def line_of(self, keys: Keys) -> Line | None:
        """The line of a list of keys; nothing if it isn't drawn."""
        line = self.lines.get(keys)
        if line is not None:
            return line
        if len(self.lines) == MOST_LINES or self.wanted is not None and keys not in self.wanted:
            if len(self.others) < MOST_OTHERS:
                self.others[keys] = None
            return None
        self.lines[keys] = Line(len(self.columns))
        return self.lines[keys]

    def begin_cell(self, at: int) -> int:
        """Begins the next cell, and gives its number. All become wider if they are too many."""
        self.cells += 1
        self.last_cell = at // self.width
        while self.cells > self.most_cells:
            self.widen()
        return at // self.width

    def widen(self) -> None:
        """Makes of each two cells one."""
        self.width *= 2
        self.last_cell = None if self.last_cell is None else self.last_cell // 2
        for line in self.lines.values():
            line.widen()
        numbers = (cells for line in self.lines.values() for cells in line.columns)
        self.cells = len({self.last_cell}.union(*numbers))

    def points(self) -> list[tuple[Keys, list[list[Point]]]]:
        """The keys of each line in order, and the points of each of its columns."""
        lines = sorted(self.lines.items(), key=lambda line: in_order(line[0]))
        return [(keys, line.points()) for keys, line in lines]

    def is_thinned(self) -> bool:
        """Whether rows share a cell."""
        return self.width > self.bucket


class FirstRows:
    """Keeps the first rows of an answer, and counts all."""

    def __init__(self, most: int) -> None:
        self.most = most
        self.count = 0
        self.next: list[str] | None = None

    def __call__(self, texts: Iterable[str]) -> list[list[str]]:
        kept: list[list[str]] = []
        for text in texts:
            self.count += 1
            if self.count <= self.most:
                kept.append(text.split("|"))
            elif self.next is None:
                self.next = text.split("|")
        return kept

    def whole_buckets(self, rows: list[list[str]]) -> list[list[str]]:
        """The rows without those of the bucket in which they were cut, if others are left."""
        if self.next is None:
            return rows
        return [row for row in rows if row[0] != self.next[0]] or rows
