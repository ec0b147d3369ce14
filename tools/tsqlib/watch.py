"""`tsq watch`: the answer to a question, redrawn in place as the journal grows."""
from __future__ import annotations

import os
import shutil
import sys
import time
from argparse import ArgumentTypeError, Namespace
from pathlib import Path
from typing import NamedTuple

from . import programs
from .answers import Style, is_stale, output_for, range_text, table
from .copies import cleaned_up
from .dropped import JournalDrops
from .follower import Follower, asks
from .journal import NAME
from .messages import Trouble
from .names import Names, Unit
from .options import Commands, folder_option, scale_option, times_option
from .printing import unit_of
from .refusals import explanation
from .replies import Reply, replies_in
from .schema import Schema, learn_folder
from .translation import NotSent, Translator

SESSION = "watch"
# Stale ranges that are named below the rows, and the lines of a table above its rows.
MOST_NAMED = 4
HEADING = 2
CLEAR, HOME, END_OF_LINE, END_OF_SCREEN = "\x1b[2J", "\x1b[H", "\x1b[K", "\x1b[J"
HIDE, SHOW = "\x1b[?25l", "\x1b[?25h"
BOLD, FAINT, YELLOW, PLAIN = "\x1b[1m", "\x1b[2m", "\x1b[33m", "\x1b[0m"


def seconds(text: str) -> float:
    """A number of seconds."""
    try:
        found = float(text)
    except ValueError:
        found = 0.0
    if not 0.1 <= found <= 86400:
        raise ArgumentTypeError(f"{text}: wanted are seconds, from 0.1 to 86400")
    return found


def count(text: str) -> int:
    """How many answers."""
    if not text.isdecimal() or not 1 <= len(text) <= 9 or int(text) == 0:
        raise ArgumentTypeError(f"{text}: wanted is a number from 1 to 999999999")
    return int(text)


def add_command(commands: Commands) -> None:
    """`tsq watch`."""
    parser = commands.add_parser("watch", help="show an answer that follows what another process writes")
    parser.add_argument("question", metavar="QUERY", help="a SELECT in quotes, or the name of an aggregate or a table")
    parser.add_argument("--every", type=seconds, default=2.0, metavar="SECONDS", help="between two looks; 2 without it")
    parser.add_argument("--count", type=count, metavar="N", help="end after so many answers")
    times_option(parser, "print times as dates in UTC; times are seconds, milliseconds or microseconds since 1970")
    scale_option(parser, "divide a column by 10 so many times, such as mean=2; may be given several times")
    folder_option(parser)
    parser.set_defaults(call=watch)


class Shown(NamedTuple):
    """An answer, or a refusal, at a position: the lines in front, those of its rows and whether each is stale, and
    the lines after."""

    position: int
    front: list[str]
    rows: list[tuple[str, bool]]
    after: list[str]
    is_refused: bool = False


def statement_of(question: str) -> str:
    """The statement that asks; a name alone asks for all of it."""
    text = " ".join(question.split())
    if NAME.fullmatch(text.lower().encode("utf-8", "replace")):
        return f"SELECT * FROM {text}"
    if not asks(text) or not text[:6].lower() == "select":
        raise Trouble(f"watch is for questions: a SELECT, or the name of an aggregate or a table. This is {question!r}")
    return text


class Watch:
    """A question that is asked again at each new position."""

    def __init__(self, follower: Follower, statement: str, style: Style, unit: Unit | None) -> None:
        self.follower = follower
        self.unit = unit
        self.statement = statement
        self.style = style
        self.drops = JournalDrops(follower.origin)
        self.shown = self.ask()

    def ask(self) -> Shown:
        """The answer at the position of the copy. Dates in the question, and now(), are those of this moment."""
        schema, names = Schema(), self.style.names or Names(Path())
        learn_folder(schema, self.follower.folder)
        try:
            text = Translator(schema, names, self.unit).translated(f"{SESSION}: {self.statement}")
        except NotSent as why:
            raise Trouble(str(why)) from None
        script = f"{text}\n".encode()
        status, output = programs.call(["run"], script, self.follower.folder)
        replies = list(replies_in(output, script))
        if not replies:
            raise Trouble(f"tsctl gave no answer (status {status})")
        return self.shown_of(replies[0], schema)

    def shown_of(self, reply: Reply, schema: Schema) -> Shown:
        """A reply as it is shown."""
        position = self.follower.position
        if reply.fault():
            return Shown(position, [*reply.heads, *explanation(reply, False)], [], [], True)
        output = output_for(reply, schema)
        reply = self.drops.parted(reply, output.width)
        lines = table(reply, output, self.style)
        rows = lines[HEADING : HEADING + len(reply.rows)]
        named = [f"stale {range_text(bounds, self.style.unit)}" for bounds in reply.stale[:MOST_NAMED]]
        more = [f"and {len(reply.stale) - MOST_NAMED} stale ranges more"] * (len(reply.stale) > MOST_NAMED)
        more += [f"dropped {range_text(bounds, self.style.unit)}" for bounds in reply.dropped[:MOST_NAMED]]
        marked = [(line, is_stale(reply, row)) for line, row in zip(rows, reply.rows)]
        return Shown(position, lines[:HEADING] if rows else [], marked, named + more)

    def step(self) -> bool:
        """Asks again if there is something new, and gives whether there was."""
        if not self.follower.step():
            return False
        self.shown = self.ask()
        return True

    def age(self) -> str:
        """How long ago the journal was last written."""
        gone = max(0, int(time.time() - self.follower.written()))
        for size, name in ((86400, "d"), (3600, "h"), (60, "min")):
            if gone >= size:
                return f"{gone // size} {name} ago"
        return f"{gone} s ago"

    def summary(self) -> str:
        """The position, the age, and how much there is."""
        rows, stale = len(self.shown.rows), sum(is_old for _, is_old in self.shown.rows)
        parts = [f"@{self.shown.position}", f"written {self.age()}", f"{rows} row{'s' * (rows != 1)}, {stale} stale"]
        return "  ".join(parts if not self.shown.is_refused else parts[:2])


# ---- at a terminal


class Screen:
    """A terminal in which lines are drawn over those of before."""

    def __init__(self) -> None:
        self.has_colors = "NO_COLOR" not in os.environ

    def colored(self, text: str, color: str) -> str:
        return f"{color}{text}{PLAIN}" if self.has_colors else text

    def lines(self, watch: Watch, note: str) -> list[str]:
        """What is drawn: as many of the last rows as there is room for."""
        size, shown = shutil.get_terminal_size(), watch.shown
        room = size.lines - 2 - len(shown.front) - len(shown.after) - 1
        rows = shown.rows
        hidden = max(0, len(rows) - max(room, 1))
        if hidden:
            hidden += 1
            shown = shown._replace(rows=rows[hidden:])
        cut = size.columns
        head = f"{watch.statement}  "[: max(0, cut - len(watch.summary()))] + watch.summary()
        out = [self.colored(head[:cut], BOLD), self.colored(note[:cut], FAINT)]
        out += [line[:cut] for line in shown.front]
        out += [f"({hidden} earlier rows)"[:cut]] * bool(hidden)
        out += [self.colored(line[:cut], YELLOW) if is_old else line[:cut] for line, is_old in shown.rows]
        return out + [self.colored(line[:cut], YELLOW) for line in shown.after]

    def draw(self, watch: Watch, note: str) -> None:
        """Draws over what was drawn before."""
        lines = self.lines(watch, note)
        sys.stdout.write(HOME + "\n".join(line + END_OF_LINE for line in lines) + END_OF_SCREEN)
        sys.stdout.flush()


def look(watch: Watch) -> str:
    """Takes a step, and gives what is wrong with the journal now, which may mend itself."""
    try:
        watch.step()
        return ""
    except Trouble as trouble:
        return f"{trouble}; trying again"


def draw_until_ended(watch: Watch, every: float, most: int | None) -> None:
    """Draws until it is interrupted, or so many times."""
    screen, hint = Screen(), f"every {every:g} s, Ctrl-C ends"
    sys.stdout.write(HIDE + CLEAR)
    try:
        note, drawn = "", 0
        while True:
            screen.draw(watch, note or hint)
            drawn += 1
            if drawn == most:
                return
            time.sleep(every)
            note = look(watch)
    finally:
        sys.stdout.write(f"\n{SHOW}")
        sys.stdout.flush()


# ---- elsewhere


def print_until_ended(watch: Watch, every: float, most: int | None) -> None:
    """Prints each new answer after the one before, until it is interrupted, or so many."""
    printed = 0
    while True:
        shown = watch.shown
        print(watch.summary(), *shown.front, *(line for line, _ in shown.rows), *shown.after, "", sep="\n", flush=True)
        printed += 1
        if printed == most:
            return
        time.sleep(every)
        while not watch.step():
            time.sleep(every)


def watch(options: Namespace) -> int:
    """Watches until it is interrupted; gives the exit status."""
    statement = statement_of(options.question)
    names = Names.read(Path(options.folder or "."))
    unit = unit_of(options, names)
    style = Style(unit, scales=dict(options.scale), names=names)
    with cleaned_up(), Follower(options.folder or ".") as follower:
        watched = Watch(follower, statement, style, unit)
        if watched.shown.is_refused:
            print(*watched.shown.front, sep="\n", file=sys.stderr)
            return 1
        is_terminal = sys.stdout.isatty() and os.environ.get("TERM", "dumb") != "dumb"
        try:
            (draw_until_ended if is_terminal else print_until_ended)(watched, options.every, options.count)
        except KeyboardInterrupt:
            pass
    return 0
