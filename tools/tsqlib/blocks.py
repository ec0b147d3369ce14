"""Rows in the parts of time that are committed at once, in memory up to a bound and beyond it in a file."""
from __future__ import annotations

import tempfile
from collections.abc import Iterable, Iterator
from typing import NamedTuple

# The characters of rows that wait in memory, and those of a block, which has to fit into one run.
MOST_WAITING = 1 << 24
MOST_BLOCK = 1 << 25


class Segment(NamedTuple):
    """Where rows stand in the file."""

    place: int
    size: int


class Parts:
    """Rows, each a text without a line feed, by the part of time that they lie in. Those of a part stay in the order
    in which they came."""

    def __init__(self, width: int) -> None:
        self.width = width
        self.waiting: dict[int, list[str]] = {}
        self.size = 0
        self.segments: dict[int, list[Segment]] = {}
        self.file = tempfile.TemporaryFile()

    def __enter__(self) -> Parts:
        return self

    def __exit__(self, *_: object) -> None:
        self.close()

    def close(self) -> None:
        """Frees all rows."""
        self.file.close()
        self.waiting, self.segments = {}, {}

    def add(self, time: int, row: str) -> None:
        """Adds a row."""
        self.waiting.setdefault(time // self.width, []).append(row)
        self.size += len(row)
        if self.size > MOST_WAITING:
            self.spill()

    def spill(self) -> None:
        """Writes the rows that wait to the file."""
        place = self.file.seek(0, 2)
        for part, rows in self.waiting.items():
            content = "\n".join(rows).encode()
            self.file.write(content)
            self.segments.setdefault(part, []).append(Segment(place, len(content)))
            place += len(content)
        self.waiting = {}
        self.size = 0

    def in_order(self) -> list[int]:
        """The parts that have rows."""
        return sorted(self.waiting.keys() | self.segments.keys())

    def rows(self, part: int) -> Iterator[str]:
        """The rows of a part."""
        for place, size in self.segments.get(part, []):
            self.file.seek(place)
            yield from self.file.read(size).decode().split("\n")
        yield from self.waiting.get(part, [])

    def blocks(self, gap: int | None, at: int) -> Iterator[list[str]]:
        """The rows of each block: those of a part, as many as fit. With a gap, in order of time, and no two neighbors
        of a block lie further apart. The time is the value with the number `at`."""
        for part in self.in_order():
            for rows in pieces(self.rows(part)):
                yield from [rows] if gap is None else parted(rows, gap, at)


def pieces(rows: Iterable[str]) -> Iterator[list[str]]:
    """Rows in lists that each fit into a run."""
    piece: list[str] = []
    size = 0
    for row in rows:
        if piece and size + len(row) + 3 > MOST_BLOCK:
            yield piece
            piece, size = [], 0
        piece.append(row)
        size += len(row) + 3
    if piece:
        yield piece


def time_in(row: str, at: int) -> int:
    """The time of a row."""
    return int(row.split(",", at + 1)[at])


def parted(rows: list[str], gap: int, at: int) -> Iterator[list[str]]:
    """Rows by their times, those further apart than the gap in different lists."""
    timed = sorted(((time_in(row, at), row) for row in rows), key=lambda item: item[0])
    group: list[str] = []
    last = 0
    for time, row in timed:
        if group and time - last > gap:
            yield group
            group = []
        group.append(row)
        last = time
    if group:
        yield group
