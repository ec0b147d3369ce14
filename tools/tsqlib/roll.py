"""`tsq roll`: the groups of an aggregate added up by days, weeks, months, quarters or years of a time zone."""
from __future__ import annotations

import argparse
import csv
import json
import sys
from collections.abc import Iterator
from dataclasses import dataclass, field
from pathlib import Path

from .aggregates import Aggregate
from .answers import Style, column_texts, literal
from .asking import Shown, ask
from .gaps import State, edges_of, states_of
from .messages import Trouble, say
from .moments import Clock, zone_of
from .names import Names
from .options import Commands, folder_option, places, scale_option, snapshot_option, times_option
from .periods import KINDS, Periods
from .rolling import Rolled, Total, roll_up, totals_of
from .schema import distinct

PLACES, PLACES_FOR_PROGRAMS = 3, 12


def add_command(commands: Commands) -> None:
    """`tsq roll`."""
    parser = commands.add_parser("roll", help="add an aggregate up by months and other periods of the calendar")
    parser.add_argument("view", metavar="AGGREGATE")
    parser.add_argument("--by", choices=KINDS, required=True, help="the periods")
    snapshot_option(parser)
    parser.add_argument("--zone", default="UTC", help="the time zone, such as Europe/Berlin; UTC without it")
    parser.add_argument("--from", dest="low", metavar="TIME", help="buckets that start at a time or later")
    parser.add_argument("--to", dest="high", metavar="TIME", help="buckets that start before a time")
    forms = parser.add_mutually_exclusive_group()
    forms.add_argument("--csv", dest="form", action="store_const", const="csv", help="as CSV")
    forms.add_argument("--json", dest="form", action="store_const", const="json", help="as JSON, an object a row")
    parser.add_argument("--places", type=places, metavar="N", help="digits after the point of averages that don't end")
    parser.add_argument("--fractions", action="store_true", help="in CSV and JSON, averages as fractions too")
    scale_option(parser, "divide a column by 10 so many times, such as mean=2; may be given several times")
    times_option(parser, "times are seconds, milliseconds or microseconds since 1970")
    folder_option(parser)
    parser.set_defaults(call=roll)


# ---- how it is written


@dataclass(frozen=True)
class Sheet:
    """The columns of a roll as texts, with the fraction behind each average if that is wanted; in a table a fraction
    has no heading."""

    headings: list[str] = field(default_factory=list)
    columns: list[list[str]] = field(default_factory=list)
    numbers: list[bool] = field(default_factory=list)


    def put(self, heading: str, texts: list[str], is_number: bool = False) -> None:
        """Adds a column."""
        self.headings.append(heading)
        self.columns.append(texts)
        self.numbers.append(is_number)


def fill(sheet: Sheet, aggregate: Aggregate, rolled: Rolled, style: Style, is_table: bool) -> None:
    """Adds the keys and the values."""
    rows, keys_end = rolled.rows(), 1 + len(aggregate.keys)

    def written(place: int, name: str, is_time: bool, unit: str | None) -> tuple[list[str], list[str]]:
        cells = [row[place] for row in rows]
        found = column_texts(cells, name, is_time=is_time, style=style, is_iso=not is_table, unit=unit)
        return found[0], found[1]

    for place, key in enumerate(aggregate.keys, 1):
        _, texts = written(place, key, key == aggregate.time, key)
        sheet.put(key, texts, is_number=key != aggregate.time and not (style.names and style.names.has_texts(key)))
    for place, total in enumerate(rolled.totals, keys_end):
        unit = None if total.function.startswith("count") else total.column
        fractions, texts = written(place, total.name, total.is_time, unit)
        sheet.put(total.name, texts, is_number=not total.is_time)
        if style.fractions and any("/" in str(row[place]) for row in rows):
            # Beside a NULL average there is no fraction.
            beside = ["" if is_table and cell == "null" else cell for cell in fractions]
            sheet.put("" if is_table else f"{total.name}_fraction", beside)


def table_lines(sheet: Sheet, marks: list[str]) -> list[str]:
    """The lines of a table."""
    written = []
    for heading, texts, is_number in zip([*sheet.headings, ""], [*sheet.columns, marks], [*sheet.numbers, False]):
        width = max(map(len, [heading, *texts]))
        align = str.rjust if is_number else str.ljust
        written.append([align(text, width) for text in [heading, "-" * width if heading else "", *texts]])
    return ["  ".join(cells).rstrip() for cells in zip(*written)]


def print_table(sheet: Sheet, starts: list[int], states: dict[int, State], periods: Periods, shown: Shown) -> None:
    """A table, and below it what must be said of it."""
    print(f"{shown.title} by {periods.kind}, {periods.clock.zone.key}: @{shown.position} rows {len(starts)}")
    if starts:
        print(*table_lines(sheet, [states[start].words() for start in starts]), sep="\n")
    for line in said_of(states, periods, shown):
        print(line)


def said_of(states: dict[int, State], periods: Periods, shown: Shown) -> Iterator[str]:
    """Lines that name what is stale, dropped and cut."""
    for word, ranges in (("stale", shown.late), ("dropped", shown.dropped)):
        for bounds in ranges:
            yield f"{word} {periods.clock.span(bounds)}"
    for start, state in states.items():
        if state.cut:
            yield f"cut {periods.name(start)}: {state.cut}"


def print_for_programs(sheet: Sheet, starts: list[int], states: dict[int, State], form: str) -> None:
    """CSV, or JSON with an object a row, with columns that say what is stale, dropped and cut."""
    names = distinct([*sheet.headings, "stale", "dropped", "cut"])
    rows = [[*cells, *states[start].cells()] for start, cells in zip(starts, zip(*sheet.columns))]
    if form == "csv":
        writer = csv.writer(sys.stdout, lineterminator="\n")
        writer.writerow(names)
        writer.writerows([["" if cell == "null" else cell for cell in row] for row in rows])
        return
    keys = [json.dumps(name) for name in names]
    texts = [not is_number for is_number in sheet.numbers] + [False] * 3
    for row in rows:
        cells = [json.dumps(cell) if is_text and cell != "null" else literal(cell) for cell, is_text in zip(row, texts)]
        print("{" + ", ".join(f"{key}: {cell}" for key, cell in zip(keys, cells)) + "}")


# ---- the command


def style_for(arguments: argparse.Namespace, totals: list[Total], clock: Clock, names: Names) -> Style:
    """How numbers are written: with the scales that are given, else with those that the folder remembers."""
    given = {name.lower(): power for name, power in arguments.scale}
    for name in given:
        if name not in [total.name for total in totals]:
            raise Trouble(f"--scale {name}={given[name]}: no such column is added up")
    most = PLACES_FOR_PROGRAMS if arguments.form else PLACES
    digits = most if arguments.places is None else arguments.places
    return Style(clock.unit, digits, not arguments.form, not arguments.form or arguments.fractions, given, names=names)


def roll(arguments: argparse.Namespace) -> int:
    """Adds up what an aggregate shows, and prints it."""
    folder = arguments.folder or "."
    names = Names.read(Path(folder))
    clock = Clock(arguments.times or names.times, zone_of(arguments.zone))
    if clock.unit is None:
        raise Trouble("periods are of the calendar: --times s, ms or us tells what times are")
    low, high = (clock.read(text) if text else None for text in (arguments.low, arguments.high))
    shown = ask(folder, arguments.view, low, high)
    aggregate, periods = shown.aggregate, Periods(arguments.by, clock)
    assert aggregate
    rolled = roll_up(aggregate, shown.rows, periods.span)
    states = states_of(shown, rolled, edges_of(shown, aggregate, low, high), aggregate.width, clock)
    starts = [int(row[0]) for row in rolled.rows()]
    sheet = Sheet()
    sheet.put(periods.kind, list(map(periods.moment if arguments.form else periods.name, starts)))
    fill(sheet, aggregate, rolled, style_for(arguments, rolled.totals, clock, names), not arguments.form)
    if arguments.form:
        print_for_programs(sheet, starts, states, arguments.form)
        for line in said_of(states, periods, shown):
            say(line)
    else:
        print_table(sheet, starts, states, periods, shown)
    for name in totals_of(aggregate)[1]:
        say(f"{name} is left out: an average is added up by a count of the same values, and {aggregate.name} has none")
    return 0
