"""What aggregates show of stale buckets, as tables of an export."""
from __future__ import annotations

import tempfile
from collections.abc import Iterator
from pathlib import Path
from typing import TYPE_CHECKING

from . import programs
from .answers import is_stale
from .cells import decimal
from .columns import Kind
from .history import History
from .journal import View
from .messages import Trouble
from .postgres import column_name
from .replies import Reply, replies_in

if TYPE_CHECKING:
    from .export import Target

# The digits after the point of an average that doesn't end.
PLACES = 16


def answers_of(views: list[View], journal: bytes) -> Iterator[Reply]:
    """What tsctl answers of each of these aggregates, asked over a copy of a journal's bytes."""
    script = "".join(f"export: SELECT * FROM {view.name}\n" for view in views).encode()
    with tempfile.TemporaryDirectory() as folder:
        (Path(folder) / "tsctl.journal").write_bytes(journal)
        status, output = programs.call(["run"], script, folder)
    if status:
        raise Trouble(f"tsctl ended with status {status}: what aggregates show of stale buckets isn't known")
    return iter(replies_in(output, script))


def cell(text: str, function: str | None, kind: Kind, target: Target) -> str:
    """A cell of an answer as COPY takes it: an average as a decimal."""
    if text == "null":
        return "\\N"
    if function == "avg":
        number, divisor = text.split("/")
        return decimal(f"{number}/{int(divisor) * 10**kind.scale}", PLACES + kind.scale)
    return target.kinds.cell(kind)(int(text))


def column_type(function: str | None, kind: Kind) -> str:
    """The type of a column: sums may pass 64 bits, and averages are no whole numbers."""
    return "NUMERIC" if function in ("sum", "avg") else kind.sql_type()


def stale_table(view: View, reply: Reply, name: str, kinds: list[Kind], target: Target) -> Iterator[str]:
    """A table with the rows of an aggregate's stale buckets, as they are shown; nothing if there are none."""
    rows = [row for row in reply.rows if is_stale(reply, row)]
    if not rows:
        return
    functions = [None] * (1 + len(view.keys)) + [it.name for it in view.functions]
    columns = [column_name(it, view.names) for it in view.names]
    types = [column_type(function, kind) for function, kind in zip(functions, kinds)]
    yield f"CREATE TABLE {target.relation(name)} ({', '.join(map(' '.join, zip(columns, types)))});"
    yield f"COPY {target.relation(name)} ({', '.join(columns)}) FROM stdin;"
    for row in rows:
        yield "\t".join(cell(*it, target) for it in zip(row, functions, kinds))
    yield "\\."


def stale_tables(history: History, journal: bytes, target: Target) -> Iterator[str]:
    """A table for each aggregate that shows stale buckets."""
    taken = {table.name for table in history.tables} | {view.name for view in history.views}
    for view, reply in zip(history.views, answers_of(history.views, journal)):
        name = f"{view.name[:50]}_stale"
        while name in taken:
            name += "_"
        lines = list(stale_table(view, reply, name, target.kinds.of_view(view, history.tables[view.table]), target))
        if lines:
            taken.add(name)
        yield from lines
