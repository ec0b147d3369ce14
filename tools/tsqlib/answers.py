"""Answers as tables, as CSV and as JSON."""
from __future__ import annotations

import csv
import io
import json
from bisect import bisect_right
from collections.abc import Iterable
from typing import Any, NamedTuple

from .cells import date, decimal, divided, shifted, time_text
from .names import Names
from .replies import Range, Reply
from .schema import Output, Schema, distinct

BELOW_ALL = -(2**63)


class Style(NamedTuple):
    """How numbers are written: the unit of times, or None; the digits of averages after the point, and whether
    zeros at their end stay; whether fractions have a column too; the powers of ten by which columns are divided;
    whether numbers are strings in JSON; and what the folder remembers, which `scales` go before."""

    unit: str | None = None
    places: int = 3
    padded: bool = True
    fractions: bool = True
    scales: dict[str, int] = {}
    strings: bool = False
    names: Names | None = None

    def text_of(self, column: str | None, number: int) -> str | None:
        """The text of a number of a table's column, if there is one."""
        return self.names.text_of(column, number) if self.names and column else None

    def scale_of(self, name: str, column: str | None) -> int:
        """By which power of ten a column of this name is divided, whose unit is that of a table's column."""
        if name in self.scales or not (self.names and column):
            return self.scales.get(name, 0)
        remembered: int = self.names.scale_of(column)
        return remembered


class Column(NamedTuple):
    """A column as it is written. `heading` stands above it in a table, and `is_text` says that its cells are no
    numbers."""

    name: str
    texts: list[str]
    heading: str
    is_text: bool = False


def output_for(reply: Reply, schema: Schema) -> Output:
    """The columns of an answer. If they aren't known they are numbered."""
    known = schema.output_of(reply.line.tokens())
    if known:
        return known
    count = len(reply.rows[0]) if reply.rows else 0
    return Output([f"column_{place}" for place in range(1, count + 1)], is_view=bool(reply.stale))


def low_end(bounds: Range) -> int:
    """Where a stale range begins, and a number below each bucket for `min`."""
    return BELOW_ALL if bounds[0] is None else bounds[0]


def lies_in(ranges: list[Range], row: list[str]) -> bool:
    """Whether the bucket of a row lies in one of these ranges."""
    if not ranges:
        return False
    start = int(row[0])
    # The ranges rise and don't meet, so of those that begin at or before the start the last one may hold it.
    begun = bisect_right(ranges, start, key=low_end)
    return begun > 0 and start < int(ranges[begun - 1][1])


def is_stale(reply: Reply, row: list[str]) -> bool:
    """Whether the bucket of a row lies in a stale range of the answer."""
    return lies_in(reply.stale, row)


def mark_of(reply: Reply, row: list[str]) -> str:
    """What is said of a row."""
    return "stale" if is_stale(reply, row) else "dropped" if lies_in(reply.dropped, row) else ""


def range_lines(reply: Reply, unit: str | None, is_iso: bool = False) -> list[str]:
    """Lines that name the ranges of dropped rows, and the stale ranges."""
    named = [("dropped", bounds) for bounds in reply.dropped] + [("stale", bounds) for bounds in reply.stale]
    return [f"{word} {range_text(bounds, unit, is_iso)}" for word, bounds in named]


def range_text(bounds: Range, unit: str | None, is_iso: bool = False) -> str:
    """A stale range as the reply has it, with dates if times are dates."""
    low, high = bounds
    return f"{'min' if low is None else time_text(low, unit, is_iso)}..{time_text(high, unit, is_iso)}"


def number_text(text: str, style: Style) -> str:
    """The decimal of a fraction; a text that is none stays as it is."""
    if "/" not in text:
        return text
    return padded(decimal(text, style.places), style)


def scaled_text(text: str, power: int, style: Style) -> str:
    """The decimal of a cell that is divided by ten so many times. One that isn't an average has so many digits."""
    if text == "null" or "/" in text:
        return text if text == "null" else number_text(divided(text, power), style)
    return padded(shifted(text, power), style)


def padded(digits: str, style: Style) -> str:
    """A decimal with the zeros at its end, or without them."""
    return digits if style.padded or "." not in digits else digits.rstrip("0").rstrip(".")


def column_texts(
    texts: list[str], name: str, unit: str | None, is_time: bool, style: Style, is_iso: bool
) -> tuple[list[str], list[str], bool]:
    """The cells of a column, whose unit is that of a table's column; the same as they are written, times as dates, keys
    as their texts and fractions as decimals; and whether they are texts."""
    if is_time and style.unit:
        return texts, [text if text == "null" else date(int(text), style.unit, is_iso) for text in texts], True
    if named := named_texts(texts, unit, style):
        return texts, named, True
    if not is_time and (power := style.scale_of(name, unit)):
        fractions = [text if text == "null" else divided(text, power) for text in texts]
        return fractions, [scaled_text(text, power, style) for text in texts], False
    return texts, [number_text(text, style) for text in texts], False


def named_texts(texts: list[str], unit: str | None, style: Style) -> list[str]:
    """The cells of a column with the texts of their numbers; nothing if no number has one."""
    if not style.names or not unit or not style.names.has_texts(unit):
        return []
    numbers = {text: style.text_of(unit, int(text)) for text in set(texts) if text != "null" and "/" not in text}
    if not any(found is not None for found in numbers.values()):
        return []
    return [text if numbers.get(text) is None else str(numbers[text]) for text in texts]


def columns_of(reply: Reply, output: Output, style: Style, is_iso: bool = False) -> list[Column]:
    """The columns of an answer. Behind an average stands its fraction, if the style asks for it."""
    columns = []
    for place, name in enumerate(output.names):
        cells = [row[place] for row in reply.rows]
        unit = output.units[place] if place < len(output.units) else None
        fractions, texts, is_text = column_texts(cells, name, unit, place in output.times, style, is_iso)
        columns.append(Column(name, texts, name, is_text))
        if style.fractions and any("/" in cell for cell in cells):
            columns.append(Column(f"{name}_fraction", fractions, ""))
    return columns


# ---- tables


def table(reply: Reply, output: Output, style: Style) -> list[str]:
    """The lines of a table: names, a rule and the rows, in which a stale bucket is marked; then the stale ranges, and
    apart from them those whose rows were dropped."""
    columns = columns_of(reply, output, style)
    if reply.stale or reply.dropped:
        columns.append(Column("stale", [mark_of(reply, row) for row in reply.rows], ""))
    written = []
    for column in columns:
        # Beside a NULL average stands no fraction.
        texts = column.texts if column.heading else ["" if text == "null" else text for text in column.texts]
        width = max(map(len, [column.heading, *texts]))
        align = str.rjust if column.heading else str.ljust
        rule = "-" * width if column.heading else ""
        written.append([align(text, width) for text in [column.heading, rule, *texts]])
    return ["  ".join(cells).rstrip() for cells in zip(*written)] + range_lines(reply, style.unit)


def expanded(reply: Reply, output: Output, style: Style) -> list[str]:
    """The rows of an answer as lists of their columns, each below a line with its number; then the stale ranges."""
    columns = columns_of(reply, output, style)
    width = max((len(column.name) for column in columns), default=0)
    lines = []
    for number, row in enumerate(reply.rows):
        lines.append(f"-- row {number + 1} {mark_of(reply, row)}".rstrip())
        lines += [f"{column.name.ljust(width)}  {column.texts[number]}" for column in columns]
    return lines + range_lines(reply, style.unit)


# ---- for other programs


def columns_for_programs(reply: Reply, output: Output, style: Style) -> list[Column]:
    """The columns of an answer under different names, with `true` or `false` for stale buckets, and for those of
    dropped rows."""
    columns = columns_of(reply, output, style, is_iso=True)
    if output.is_view or reply.stale or reply.dropped:
        for name, ranges in (("stale", reply.stale), ("dropped", reply.dropped)):
            columns.append(Column(name, [str(lies_in(ranges, row)).lower() for row in reply.rows], ""))
    names = distinct([column.name for column in columns])
    return [column._replace(name=name) for name, column in zip(names, columns)]


def cells_for_programs(reply: Reply, output: Output, style: Style) -> tuple[list[str], list[tuple[str, ...]]]:
    """The names of the columns, and the rows as lists of texts."""
    columns = columns_for_programs(reply, output, style)
    return [column.name for column in columns], list(zip(*(column.texts for column in columns)))


def csv_lines(reply: Reply, output: Output, style: Style) -> list[str]:
    """An answer as CSV, with the names in its first line; NULL is an empty cell."""
    names, rows = cells_for_programs(reply, output, style)
    text = io.StringIO()
    writer = csv.writer(text, lineterminator="\n")
    writer.writerow(names)
    writer.writerows([["" if cell == "null" else cell for cell in row] for row in rows])
    return text.getvalue().splitlines()


def is_literal(text: str) -> bool:
    """Whether a cell stands in JSON as it is: null, true, false, a number."""
    return text in ("null", "true", "false") or text.lstrip("-").replace(".", "", 1).isdigit()


def literal(text: str) -> str:
    """A cell as it stands in JSON."""
    return text if is_literal(text) else json.dumps(text)


def json_cell(text: str, column: Column, style: Style) -> str:
    """A cell of a column as it stands in JSON. Numbers are written by their digits, since not every reader of JSON
    has room for them; `style.strings` puts them into strings."""
    if text in ("null", "true", "false") and not (column.is_text and text != "null"):
        return text
    return json.dumps(text) if column.is_text or style.strings else literal(text)


def json_rows(reply: Reply, output: Output, style: Style) -> list[str]:
    """The rows of an answer, each as an object of JSON."""
    columns = columns_for_programs(reply, output, style)
    keys = [json.dumps(column.name) for column in columns]
    rows = zip(*([json_cell(text, column, style) for text in column.texts] for column in columns))
    return ["{" + ", ".join(f"{key}: {text}" for key, text in zip(keys, row)) + "}" for row in rows]


def json_lines(reply: Reply, output: Output, style: Style) -> list[str]:
    """An answer as JSON, an object a row."""
    return json_rows(reply, output, style)


# ---- stale ranges for other programs


def range_cells(bounds: Range, style: Style) -> list[str]:
    """The ends of a stale range as they are written, `null` for `min`."""
    return ["null" if bound is None else time_text(bound, style.unit, is_iso=True) for bound in bounds]


def marked(reply: Reply) -> list[tuple[Range, str]]:
    """The stale ranges and those of dropped rows by their times, with `true` for the latter."""
    found = [(bounds, "false") for bounds in reply.stale] + [(bounds, "true") for bounds in reply.dropped]
    return sorted(found, key=lambda item: low_end(item[0]))


def csv_ranges(reply: Reply, _output: Output, style: Style) -> list[str]:
    """The stale ranges of an answer as CSV, with `from`, `to` and `dropped` in its first line; `min` is an empty
    cell."""
    cells = [[*range_cells(bounds, style), is_dropped] for bounds, is_dropped in marked(reply)]
    return ["from,to,dropped", *(",".join("" if cell == "null" else cell for cell in row) for row in cells)]


def json_ends(bounds: Range, style: Style) -> str:
    """The ends of a range as fields of JSON."""
    column = Column("", [], "", is_text=bool(style.unit))
    low, high = (json_cell(cell, column, style) for cell in range_cells(bounds, style))
    return f'"from": {low}, "to": {high}'


def json_ranges(reply: Reply, _output: Output, style: Style) -> list[str]:
    """The stale ranges of an answer as JSON, an object a range."""
    return [f'{{{json_ends(bounds, style)}, "dropped": {is_dropped}}}' for bounds, is_dropped in marked(reply)]


def json_list(ranges: list[Range], style: Style) -> str:
    """Ranges as a list of JSON."""
    return "[" + ", ".join(f"{{{json_ends(bounds, style)}}}" for bounds in ranges) + "]"


# ---- an object for each reply


def object_of(fields: Iterable[tuple[str, str]]) -> str:
    """An object of JSON, of names and values that are JSON already."""
    return "{" + ", ".join(f"{json.dumps(name)}: {value}" for name, value in fields) + "}"


def answer_object(reply: Reply, output: Output | None, style: Style) -> str:
    """A reply as one object of JSON: its line, session and position; of an answer its columns, rows, stale ranges and
    ranges of dropped rows; else its lines, and of a refusal its number, word and place."""
    position = reply.position()
    fields: list[tuple[str, Any]] = [
        ("line", reply.line.number), ("session", reply.line.session), ("position", position), ("reply", reply.texts()),
    ]  # fmt: skip
    if fault := reply.fault():
        fields.append(("fault", {"code": fault[0], "word": fault[1], "place": int(fault[2]) if fault[2] else None}))
    written = [(name, json.dumps(value)) for name, value in fields]
    if output is not None:
        columns = [column.name for column in columns_for_programs(reply, output, style)]
        written.append(("columns", json.dumps(columns)))
        written.append(("rows", "[" + ", ".join(json_rows(reply, output, style)) + "]"))
        written += [("stale", json_list(reply.stale, style)), ("dropped", json_list(reply.dropped, style))]
    return object_of(written)
