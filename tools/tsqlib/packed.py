"""Rows in memory, packed: some thirty bytes each, where a list of numbers takes two hundred."""
from __future__ import annotations

import marshal
from bisect import bisect_left
from collections.abc import Callable, Iterable, Iterator
from itertools import islice
from operator import itemgetter
from typing import Any, NamedTuple

# The values of a row of a table: its time, and the others in declared order, each a number or None.
Row = list[Any]
# So many rows are packed as one, so many are put in order before, and so many wait at least until they are merged.
MOST_IN_PART = 512
MOST_IN_RUN = 1 << 14
MOST_WAITING = 1 << 13


class Part(NamedTuple):
    """Rows, the least and the greatest of their times, the number of the run that they are of, and how many deletes
    were before them."""

    least: int
    most: int
    packed: bytes
    run: int
    deletes: int

    def rows(self) -> list[Row]:
        """The rows themselves."""
        rows: list[Row] = marshal.loads(self.packed)
        return rows


def part_of(rows: list[Row], run: int = 0, deletes: int = 0) -> Part:
    """Rows as a part, of which there is one at least."""
    times = [row[0] for row in rows]
    return Part(min(times), max(times), marshal.dumps(rows), run, deletes)


class Rows:
    """The rows of an INSERT, with how many values they have (`widths`) and at which places one is NULL (`empty`)."""

    def __init__(self, rows: Iterable[Row]) -> None:
        self.parts: list[Part] = []
        self.count = 0
        self.widths: set[int] = set()
        self.empty: set[int] = set()
        rows = iter(rows)
        while some := list(islice(rows, MOST_IN_PART)):
            self.parts.append(part_of(some))
            self.count += len(some)
            self.widths.update(map(len, some))
            self.empty.update(place for row in some if None in row for place, it in enumerate(row) if it is None)

    def __len__(self) -> int:
        return self.count

    def __iter__(self) -> Iterator[Row]:
        for part in self.parts:
            yield from part.rows()


class Left:
    """The rows of a table that are left after inserts and deletes. A delete takes effect when the rows are read."""

    def __init__(self) -> None:
        self.parts: list[Part] = []
        self.runs = 0
        self.new: list[Row] = []
        self.deletes: list[Callable[[Row], bool]] = []
        # Whether a row that was read isn't left.
        self.has_removed = False

    def insert(self, rows: Rows) -> None:
        """Adds rows."""
        for part in rows.parts:
            self.new += part.rows()
            if len(self.new) >= MOST_IN_RUN:
                self.pack()

    def delete(self, matches: Callable[[Row], bool]) -> None:
        """Removes the rows of before that match."""
        self.pack()
        self.deletes.append(matches)

    def pack(self) -> None:
        """Packs the rows that came since, in the order of their times: so late ones are together in few parts."""
        self.new.sort(key=itemgetter(0))
        for start in range(0, len(self.new), MOST_IN_PART):
            self.parts.append(part_of(self.new[start : start + MOST_IN_PART], self.runs, len(self.deletes)))
        self.runs += 1
        self.new = []

    def width(self) -> int:
        """How far the least and the greatest time lie apart, also those of rows that aren't left."""
        self.pack()
        return max((part.most for part in self.parts), default=0) - min((part.least for part in self.parts), default=0)

    def kept(self, part: Part) -> list[Row]:
        """The rows of a part that no later delete has removed."""
        later = self.deletes[part.deletes :]
        rows = part.rows()
        if not later:
            return rows
        kept = [row for row in rows if not any(matches(row) for matches in later)]
        self.has_removed |= len(kept) < len(rows)
        return kept

    def __iter__(self) -> Iterator[Row]:
        """The rows by their times, those of one time as they were inserted. Few are unpacked at once, unless very many
        runs have rows of the same times."""
        self.pack()
        parts = sorted(self.parts, key=itemgetter(0))
        bounds = [part.least for part in parts[1:]]
        waiting: list[tuple[int, int, Row]] = []
        enough = MOST_WAITING
        for place, part in enumerate(parts):
            waiting += ((row[0], part.run, row) for row in self.kept(part))
            if place < len(bounds) and len(waiting) < enough:
                continue
            waiting.sort(key=itemgetter(0, 1))
            # A row of a later part may go before these only from its least time on.
            ready = bisect_left(waiting, bounds[place], key=itemgetter(0)) if place < len(bounds) else len(waiting)
            yield from map(itemgetter(2), waiting[:ready])
            del waiting[:ready]
            enough = max(MOST_WAITING, 2 * len(waiting))
