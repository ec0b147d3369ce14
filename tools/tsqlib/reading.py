"""Reads the rows of a file by a plan: each one is taken, or put aside, and what is wrong with it is told."""
from __future__ import annotations

import math
from collections.abc import Callable, Iterable
from contextlib import ExitStack
from dataclasses import dataclass, field
from pathlib import Path
from typing import TextIO

from .messages import Trouble, say
from .plans import Plan
from .values import Bad, Texts, Times, converter

MOST_TOLD = 10


@dataclass
class Read:
    """What was read, and the first cells that couldn't be."""

    rows: int = 0
    nulls: int = 0
    first: int | None = None
    last: int | None = None
    broken: int = 0
    told: list[str] = field(default_factory=list)

    def tell(self, line: str) -> None:
        """Notes what is wrong with a cell, or a row."""
        self.broken += 1
        if self.broken <= MOST_TOLD:
            self.told.append(line)

    def say(self) -> None:
        """Says what was wrong."""
        for line in self.told:
            say(line)
        if self.broken > MOST_TOLD:
            say(f"and {self.broken - MOST_TOLD} more")


def told_of(
    plan: Plan, line: int, cells: list[str] | Bad, convert: list[tuple[int, Callable[[str], str]]]
) -> list[str]:
    """What is wrong with a row, a line for each cell."""
    if isinstance(cells, Bad):
        return [f"line {line} {cells}"]
    if len(cells) != plan.count:
        return [f"line {line}: {len(cells)} cells instead of {plan.count}"]
    told = []
    for (place, function), column in zip(convert, plan.columns):
        try:
            function(cells[place])
        except Bad as bad:
            name = column.name if column else ""
            told.append(f"line {line}, {plan.source.label(place)} ({name}): `{cells[place].strip()}` {bad}")
    return told


def read_rows(
    plan: Plan, nulls: Iterable[str], null: str, take: Callable[[int, list[str]], None], aside: Callable[[str], None]
) -> Read:
    """Reads all rows: each one is taken, with its time, or put aside."""
    read = Read()
    known = frozenset({"null", *(text.strip().lower() for text in nulls)})
    steps = [
        (column.place, converter(column, null, known)) if column else (0, lambda _: null) for column in plan.columns
    ]
    at, count = plan.at, plan.count
    counters: list[Times | Texts] = [*plan.texts, *([plan.times] if plan.times.zone else [])]
    first, last = math.inf, -math.inf
    for line, cells in plan.source.rows():
        try:
            if isinstance(cells, Bad) or len(cells) != count:
                raise Bad
            values = [convert(cells[place]) for place, convert in steps]
        except Bad:
            for told in told_of(plan, line, cells, steps):
                read.tell(told)
            aside(plan.source.as_read())
            for counter in counters:
                counter.undo()
            continue
        for counter in counters:
            counter.keep()
        time = int(values[at])
        first, last = min(first, time), max(last, time)
        read.rows += 1
        read.nulls += values.count(null)
        take(time, values)
    if read.rows:
        read.first, read.last = int(first), int(last)
    return read


class Aside:
    """The file of rows that were put aside, which is made by the first of them."""

    def __init__(self, name: str | None, input_name: str, head: str, files: ExitStack) -> None:
        if name and input_name != "-" and Path(name).resolve() == Path(input_name).resolve():
            raise Trouble(f"--skip-broken {name} is the file that is loaded")
        self.name = name
        self.head = head
        self.files = files
        self.file: TextIO | None = None
        self.count = 0

    def add(self, row: str) -> None:
        """Puts a row aside."""
        self.count += 1
        if self.name is None:
            return
        if self.file is None:
            self.file = self.files.enter_context(open(self.name, "w", encoding="utf-8", newline=""))
            self.file.write(self.head)
        self.file.write(row)
