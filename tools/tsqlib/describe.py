"""What a folder's journal defines: its tables and aggregates in words, for `\\d` of the prompt."""
from __future__ import annotations

from pathlib import Path
from typing import Any

from .cells import time_text
from .history import History
from .schema import definitions, mapped

Rows = list[list[str]]


def definitions_in(folder: str | Path) -> History:
    """The tables and aggregates of a folder's journal, up to where it is damaged. Rows aren't read."""
    path = Path(folder) / "tsctl.journal"
    if not path.exists():
        return History()
    with mapped(path) as content:
        return definitions(content)


def relations(history: History) -> Rows:
    """A row for each table and aggregate: its name, its kind and its columns."""
    rows = []
    for table in history.tables:
        kind = "hypertable" if table.hyper else "table without rows: create_hypertable is missing"
        rows.append([table.name, kind, ", ".join(name for name, _ in table.columns)])
    for view in history.views:
        rows.append([view.name, f"aggregate of {history.tables[view.table].name}", ", ".join(view.names)])
    return rows


def test_text(test: Any, columns: list[str]) -> str:
    """A test as it is written."""
    number = "" if "NULL" in test.comparison else f" {test.number}"
    return f"{columns[test.column]} {test.comparison}{number}"


def function_text(function: Any, columns: list[str]) -> str:
    """A function with its column as it is written."""
    return str(function.name) if function.name == "count(*)" else f"{function.name}({columns[function.column]})"


def table_lines(table: Any) -> list[str]:
    """A table in words: its columns, its time column and its chunks."""
    time = table.columns[table.hyper.place][0] if table.hyper else None
    lines = [f"{'hypertable' if time else 'table'} {table.name}"]
    for name, must in table.columns:
        marks = " NOT NULL" * (must or name == time) + ", the time column" * (name == time)
        lines.append(f"  {name} BIGINT{marks}")
    return lines + ([f"chunks of {table.hyper.interval}"] if time else ["no rows before create_hypertable"])


def view_lines(view: Any, table: Any) -> list[str]:
    """An aggregate in words: its table, buckets, columns, tests and mode."""
    columns = [name for name, _ in table.numbered()]
    offset = f", offset {view.offset}" if view.offset else ""
    lines = [f"aggregate {view.name} of {table.name}"]
    shown = [f"bucket of {columns[0]}, width {view.width}{offset}"]
    shown += [f"key {columns[key]}" for key in view.keys]
    shown += [function_text(function, columns) for function in view.functions]
    lines += [f"  {name}: {what}" for name, what in zip(view.names, shown)]
    lines += [f"rows with {' AND '.join(test_text(test, columns) for test in view.tests)}"] * bool(view.tests)
    mode = "what was refreshed only" if view.only else "what was refreshed, and above the watermark the rows themselves"
    return [*lines, f"shows {mode}"]


def definition(history: History, name: str) -> list[str] | None:
    """A table or an aggregate in words; nothing if there is none of this name."""
    for table in history.tables:
        if table.name == name:
            views = [view.name for view in history.views if history.tables[view.table] is table]
            return table_lines(table) + [f"aggregates: {', '.join(views)}"] * bool(views)
    for view in history.views:
        if view.name == name:
            return view_lines(view, history.tables[view.table])
    return None


def columns_of_rows(heading: list[str], rows: Rows) -> list[str]:
    """Rows as lines with columns of one width."""
    widths = [max(len(row[place]) for row in [heading, *rows]) for place in range(len(heading))]
    lines = [heading, ["-" * width for width in widths], *rows]
    return ["  ".join(text.ljust(width) for text, width in zip(line, widths)).rstrip() for line in lines]


def bound_text(bound: int | None, unit: str | None) -> str:
    """A bound of a stale range, or a watermark, as it is shown."""
    return "min" if bound is None else time_text(bound, unit)
