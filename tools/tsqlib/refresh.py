"""`tsq refresh`: refreshes the stale ranges of an aggregate, and leaves alone what a refresh would lose."""
from __future__ import annotations

import argparse
from collections import deque
from collections.abc import Iterable
from pathlib import Path

from .aggregates import Aggregate, aggregate_in
from .asking import answered, replies_to, select_text
from .dropped import parted
from .follower import open_snapshot
from .holder import require_free
from .messages import Trouble, say
from .moments import Clock, zone_of
from .names import Names
from .options import Commands, folder_option, times_option
from .programs import Ended, Program
from .replies import Range, Reply

SESSION = "tsq"
REFUSED = 1


def add_command(commands: Commands) -> None:
    """`tsq refresh`."""
    parser = commands.add_parser("refresh", help="refresh the stale ranges of an aggregate")
    parser.add_argument("view", metavar="AGGREGATE")
    parser.add_argument("--stale", action="store_true", required=True, help="what an answer names as stale")
    parser.add_argument("--from", dest="low", metavar="TIME", help="only buckets that start at a time or later")
    parser.add_argument("--show", action="store_true", help="print the statements, and run none")
    parser.add_argument("--zone", default="UTC", help="the time zone of dates, such as Europe/Berlin; UTC without it")
    times_option(parser, "times are seconds, milliseconds or microseconds since 1970")
    folder_option(parser)
    parser.set_defaults(call=refresh)


def statement_of(view: str, span: Range) -> str:
    """The statement that refreshes a range."""
    low, high = span
    return f"CALL refresh_continuous_aggregate('{view}', {'NULL' if low is None else low}, {high})"


def nothing_of(texts: Iterable[str]) -> list[list[str]]:
    """None of the rows."""
    deque(texts, maxlen=0)
    return []


def stale_of(reply: Reply, aggregate: Aggregate) -> tuple[list[Range], list[Range]]:
    """The ranges that an answer names: those of dropped rows, and the others."""
    return parted(answered(reply).stale, aggregate.kept_from)


def print_left(dropped: list[Range], aggregate: Aggregate, clock: Clock) -> None:
    """Says which stale ranges are left, and why."""
    for span in dropped:
        print(f"left {clock.span(span)}: drop_chunks removed rows there, and a refresh would lose what is shown")
    if dropped and aggregate.kept_from is not None:
        print(f"{aggregate.name} is refreshed from {clock.text(aggregate.kept_from)} on")


def show(folder: str, view: str, low: int | None, clock: Clock) -> int:
    """Prints the statements that would run, by a copy of the journal."""
    aggregate = aggregate_in(folder, view)
    with open_snapshot(folder) as copy:
        dropped, late = stale_of(replies_to([select_text(aggregate, low, None, "")], copy.folder)[0], aggregate)
    for span in late:
        print(f"{SESSION}: {statement_of(aggregate.name, span)}")
    for span in dropped:
        print(f"-- left: {clock.span(span)}, since drop_chunks removed rows there")
    return 0


def mend(folder: str, view: str, low: int | None, clock: Clock) -> int:
    """Refreshes what is stale, in one run: nobody else drops a chunk meanwhile."""
    aggregate_in(folder, view)
    status = 0
    with Program(folder) as program:

        def ask(statement: str) -> Reply:
            return program.ask(f"{SESSION}: {statement}".encode(), keep_rows=nothing_of)

        # The first reply says that the run holds the folder, so the journal stays as it is.
        ask("COMMIT")
        aggregate = aggregate_in(folder, view)
        dropped, late = stale_of(ask(select_text(aggregate, low, None, "")), aggregate)
        for span in late:
            reply = ask(statement_of(aggregate.name, span))
            if reply.fault():
                status = REFUSED
            text = reply.texts()[0]
            print(f"{clock.span(span)}: {text}")
    if not late:
        print(f"{aggregate.name}: nothing is stale that a refresh could bring up to date")
    print_left(dropped, aggregate, clock)
    return status


def refresh(arguments: argparse.Namespace) -> int:
    """Refreshes what is stale, or shows how."""
    folder = arguments.folder or "."
    names = Names.read(Path(folder))
    clock = Clock(arguments.times or names.times, zone_of(arguments.zone))
    low = clock.read(arguments.low) if arguments.low else None
    if arguments.show:
        return show(folder, arguments.view, low, clock)
    require_free(folder, "end it, or give it the statements that --show prints")
    try:
        return mend(folder, arguments.view, low, clock)
    except Ended as ended:
        say(str(ended))
        return ended.status
