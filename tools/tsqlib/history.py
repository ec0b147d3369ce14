"""Follows the events of a journal: which one may come next, what `tsctl log` prints of it, and what there is."""
from __future__ import annotations

from collections.abc import Iterator, Sequence
from typing import Any, TypeVar

from .image import LAST_POSITION, Image, read_image, require, require_valid
from .journal import (
    Built, Bytes, Commit, Cut, Damaged, Event, Hyper, Insert, Mode, Table, View, Wrong, event, is_base, payloads,
)  # fmt: skip
from .packed import Rows

MOST_RELATIONS, MOST_COLUMNS = 64, 16
MOST_WIDTH, MOST_INTERVAL = 2**40, 2**50


Item = TypeVar("Item")


def item(items: Sequence[Item], number: int) -> Item:
    """The item of this number, which must be there."""
    require(number < len(items))
    return items[number]


def apart(names: Sequence[str]) -> bool:
    """Whether no two of the names are the same."""
    return len(set(names)) == len(names)


class Relation:
    """A table: its definition, and its event `hyper` once it is a hypertable."""

    def __init__(self, table: Table) -> None:
        self.name = table.name
        self.columns = table.columns
        self.hyper: Hyper | None = None

    def place(self) -> int:
        """The declared place of the time column of a hypertable."""
        if not self.hyper:
            raise Wrong
        return self.hyper.place

    def numbered(self) -> list[tuple[str, bool]]:
        """The columns of a hypertable by their numbers: the time column, then the others in declared order."""
        time = self.place()
        return [self.columns[time], *(column for place, column in enumerate(self.columns) if place != time)]


class History:
    """Tables and aggregates by their numbers, and the refreshes that were cut and finished."""

    def __init__(self) -> None:
        self.base = 0
        self.position = 0
        self.tables: list[Relation] = []
        self.views: list[View] = []
        self.cuts: dict[int, Cut] = {}
        self.finished: set[int] = set()

    def add(self, new: Event) -> str:
        """Takes one more event, and gives its line in the log."""
        adders: dict[type[Any], Any] = {
            Table: self.add_table, Hyper: self.add_hyper, View: self.add_view, Mode: self.add_mode,
            Commit: self.add_commit, Cut: self.add_cut, Built: self.add_built,
        }  # fmt: skip
        require(self.position < LAST_POSITION)
        line = adders[type(new)](new)
        self.position += 1
        return f"@{self.position} {line}"

    def resume(self, image: Image) -> str:
        """Begins with an image, and gives its line in the log."""
        require_valid(self, image)
        self.base = self.position = image.position
        self.cuts = {it.cut: Cut(it.view, it.start, it.end) for it in image.waiting}
        self.finished = {it.cut for it in image.finished}
        return f"IMAGE @{image.position}"

    def hypertable(self, number: int) -> Relation:
        """The hypertable of this number, which must be there."""
        table = item(self.tables, number)
        require(table.hyper)
        return table

    def require_free(self, name: str, relations: Sequence[Relation | View]) -> None:
        """A new relation has a name of its own, and there is room for one more of its kind."""
        require(len(relations) < MOST_RELATIONS)
        require(name not in {table.name for table in self.tables} | {view.name for view in self.views})

    def add_table(self, new: Table) -> str:
        self.require_free(new.name, self.tables)
        require(1 <= len(new.columns) <= MOST_COLUMNS and apart([name for name, _ in new.columns]))
        self.tables.append(Relation(new))
        return f"TABLE {new.name} " + " ".join(name + "!" * must for name, must in new.columns)

    def add_hyper(self, new: Hyper) -> str:
        table = item(self.tables, new.table)
        require(not table.hyper and 1 <= new.interval <= MOST_INTERVAL)
        time, _ = item(table.columns, new.place)
        table.hyper = new
        return f"HYPER {table.name} {time} {new.interval}"

    def add_view(self, new: View) -> str:
        self.require_free(new.name, self.views)
        table = self.hypertable(new.table)
        require(1 <= new.width <= MOST_WIDTH and 0 <= new.offset < new.width)
        columns = [*new.keys, *(it.column for it in new.functions), *(test.column for test in new.tests)]
        require(all(column < len(table.columns) for column in columns))
        require(new.functions and len(new.names) == 1 + len(new.keys) + len(new.functions) <= MOST_COLUMNS)
        require(apart(new.names))
        self.views.append(new)
        return f"VIEW {new.name} {table.name} {new.width} {new.offset}"

    def add_mode(self, new: Mode) -> str:
        view = item(self.views, new.view)
        self.views[new.view] = view._replace(only=new.only)
        return f"MODE {view.name} {int(new.only)}"

    def add_commit(self, new: Commit) -> str:
        require(new.operations)
        for operation in new.operations:
            table = self.hypertable(operation.table)
            if isinstance(operation, Insert):
                self.require_rows(table, operation.rows)
            else:
                require(all(test.column < len(table.columns) for test in operation.tests))
        return f"COMMIT ops {len(new.operations)}"

    @staticmethod
    def require_rows(table: Relation, rows: Rows) -> None:
        """There are rows, and their values are those that the table takes."""
        columns = table.numbered()
        # The first one is the time, which is never NULL.
        musts = {place for place, (_, must) in enumerate(columns) if must and place > 0}
        require(rows)
        require(rows.widths == {len(columns)})
        require(not musts & rows.empty)

    def span(self, cut: Cut) -> str:
        """The aggregate and the window of a refresh, as they are printed."""
        view = self.views[cut.view]
        return f"{view.name} {'min' if cut.start == view.first() else cut.start}..{cut.end}"

    def add_cut(self, new: Cut) -> str:
        view = item(self.views, new.view)
        require(view.first() <= new.start < new.end)
        require((new.start - view.offset) % view.width == 0 == (new.end - view.offset) % view.width)
        self.cuts[self.position + 1] = new
        return f"CUT {self.span(new)}"

    def add_built(self, new: Built) -> str:
        require(new.cut in self.cuts and new.cut not in self.finished)
        require(max(new.cut, self.base) <= new.snapshot <= self.position)
        self.finished.add(new.cut)
        return f"BUILT {new.cut} snap {new.snapshot}"


def follow(file: Bytes) -> Iterator[tuple[History, Event | Image, str]]:
    """The image that a file's bytes begin with, where there is one, and each event: the history with it, itself, and
    its line in the log."""
    history = History()
    for gate, payload in payloads(file):
        try:
            new: Event | Image
            if is_base(file, payload):
                new = read_image(payload)
                line = history.resume(new)
            else:
                new = event(payload)
                line = history.add(new)
        except Wrong:
            raise Damaged(gate) from None
        yield history, new, line
