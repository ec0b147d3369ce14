"""Prints replies, for people or for other programs."""
from __future__ import annotations

import re
import sys
from argparse import Namespace
from collections.abc import Callable
from pathlib import Path

from .answers import (
    Style, answer_object, csv_lines, csv_ranges, expanded, is_stale, json_lines, json_ranges, output_for, range_lines,
    range_text, table,
)  # fmt: skip
from .dropped import JournalDrops
from .messages import Trouble, say
from .names import Names, Unit
from .refusals import explanation
from .replies import Reply
from .schema import Output, Schema
from .terminal import BOLD, RED, YELLOW, Screen, colored, wrapped

Write = Callable[[Reply, Output, Style], list[str]]
FORMS: dict[str, Write] = {"csv": csv_lines, "json": json_lines}
RANGES: dict[str, Write] = {"csv": csv_ranges, "json": json_ranges}
SCHEMA_MADE = ("TABLE @", "HYPERTABLE @", "VIEW @", "MODE @")
# A line that ends with the window of a refresh.
WINDOW = re.compile(r"(.*\b(?:REFRESH \d+ @\d+ snap \d+|CUT \d+) )(min|-?\d+)\.\.(-?\d+)")
# Lines of a table above its rows.
HEADING = 2


def dated(head: str, unit: str | None) -> str:
    """The first line of a reply, whose window of a refresh has dates if times are dates."""
    found = WINDOW.fullmatch(head) if unit else None
    if not found:
        return head
    low = None if found[2] == "min" else int(found[2])
    return found[1] + range_text((low, int(found[3])), unit)


class Printer:
    """Prints replies, and learns from them what columns are called."""

    def __init__(
        self, schema: Schema, style: Style, form: str | None = None, is_script: bool = True, has_ranges: bool = False
    ) -> None:
        self.schema = schema
        self.style = style
        self.form = form
        self.is_script = is_script
        self.has_ranges = has_ranges
        self.is_expanded = False
        self.screen = Screen()
        # What was dropped in the folder, if one is read.
        self.drops: JournalDrops | None = None
        self.has_printed = False
        # Columns of answers that could be scaled, and whether there were any.
        self.seen: set[str] = set()

    def print(self, reply: Reply) -> None:
        """Prints a reply, and takes the names that it makes known."""
        for text in reply.texts():
            if text.startswith(SCHEMA_MADE):
                self.schema.learn(reply.line.tokens(), text)
        output = output_for(reply, self.schema) if reply.is_answer() else None
        if output:
            self.see(output)
            reply = self.drops.parted(reply, output.width) if self.drops else reply
        if self.form == "answers":
            print(answer_object(reply, output, self.style))
        elif self.form:
            self.print_for_programs(reply, output)
        else:
            self.print_for_people(reply, output)

    # ---- for people

    def print_for_people(self, reply: Reply, output: Output | None) -> None:
        """The reply as it is, a refusal with what it means, an answer as a table."""
        for head, text in zip(reply.heads, reply.texts()):
            print(colored(head, RED) if text.startswith("FAULT ") else dated(head, self.style.unit))
        if reply.fault():
            for line in explanation(reply, self.is_script, self.schema):
                print(*wrapped(line), sep="\n")
        if output and (reply.rows or reply.stale or reply.dropped):
            self.print_rows(reply, output)
            print()

    def print_rows(self, reply: Reply, output: Output) -> None:
        """The rows of an answer and its stale ranges. Those of stale buckets stand out."""
        if self.is_expanded:
            lines = expanded(reply, output, self.style)
            marks = [line.startswith("-- ") and line.endswith(" stale") for line in lines]
            self.screen.show([(line, (YELLOW,) if mark else ()) for line, mark in zip(lines, marks)])
            return
        lines = table(reply, output, self.style)
        ends = HEADING + len(reply.rows)
        colors = [(BOLD,)] * HEADING + [(YELLOW,) if is_stale(reply, row) else () for row in reply.rows]
        stale = [(line, (YELLOW,)) for line in lines[ends:]]
        self.screen.show([*zip(lines[:ends], colors), *stale], "(lines are cut: \\x shows whole rows)")

    # ---- for other programs

    def print_for_programs(self, reply: Reply, output: Output | None) -> None:
        """An answer on standard output, and on standard error its stale ranges, and refusals."""
        if reply.fault():
            sys.stdout.flush()
            print(*reply.heads, *explanation(reply, self.is_script, self.schema), sep="\n", file=sys.stderr)
        if output is None or self.form is None:
            return
        if self.has_printed and self.form == "csv":
            print()
        self.has_printed = True
        written = RANGES if self.has_ranges else FORMS
        lines = written[self.form](reply, output, self.style)
        if lines:
            print(*lines, sep="\n")
        for line in [] if self.has_ranges else range_lines(reply, self.style.unit, is_iso=True):
            say(line)

    def names(self) -> Names:
        """What the folder remembers."""
        return self.style.names or Names(Path())

    # ---- scales

    def see(self, output: Output) -> None:
        """Notes which columns could be scaled: all but those that are shown as dates."""
        dates = output.times if self.style.unit else frozenset[int]()
        self.seen.update(name for place, name in enumerate(output.names) if place not in dates)

    def unused_scale(self) -> str | None:
        """A column that is to be scaled and that no answer has had."""
        return next((name for name in self.style.scales if name not in self.seen), None) if self.seen else None


def style_of(options: Namespace, names: Names) -> Style:
    """The style that the options ask for; what they don't say is what the folder remembers. Other programs get as many
    digits as there are, up to twelve."""
    unit, scales = unit_of(options, names), dict(options.scale)
    if options.form:
        places = 12 if options.places is None else options.places
        return Style(unit, places, False, options.fractions, scales, options.strings, names)
    return Style(unit, 3 if options.places is None else options.places, scales=scales, names=names)


def unit_of(options: Namespace, names: Names) -> Unit | None:
    """The unit of times that is asked for, else the one that the folder remembers."""
    unit: Unit | None = options.times or names.times
    if options.times and names.times and options.times != names.times:
        raise Trouble(f"--times {options.times}: {names.path} says that times are in {names.times}")
    return unit
