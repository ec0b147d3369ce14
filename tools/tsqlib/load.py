"""`tsq load`: the rows of a file as INSERT statements, or committed into a folder."""
from __future__ import annotations

import argparse
from contextlib import ExitStack
from pathlib import Path
from typing import TextIO
from zoneinfo import ZoneInfo

from .cells import time_text
from .holder import require_free
from .intake import AGAIN, ONCE, PLAIN, Intake, Manner
from .messages import Trouble, say
from .names import Names, Unit
from .options import JOURNAL, Commands, scale_option, times_option
from .plans import Plan, dict_of_scales, plan_of
from .positions import position_in
from .printed import print_statements
from .programs import Ended
from .reading import Aside, Read, read_rows
from .resume import Notes, is_absent
from .schema import Hypertable, hypertable_of
from .sending import Sender, check, send
from .sources import LineProtocol, Objects, looks_like, opened
from .values import Texts

SECONDS_OF_DAY = 86400
TICKS = {"s": 1, "ms": 10**3, "us": 10**6}
FORMATS = ["csv", "json", "influx"]


# ---- the options


def distance(text: str) -> int:
    """How far two times lie apart."""
    if not text.isdecimal() or len(text) > 19:
        raise argparse.ArgumentTypeError(f"{text}: wanted is a whole number from 0")
    return int(text)


def width(text: str) -> int:
    """How wide a part of time is."""
    if distance(text) == 0:
        raise argparse.ArgumentTypeError(f"{text}: wanted is a whole number from 1")
    return int(text)


def character(text: str) -> str:
    """A single character; a tab may be written as in Python."""
    if text == "\\t":
        return "\t"
    if len(text) != 1:
        raise argparse.ArgumentTypeError("wanted is one character")
    return text


def zone(text: str) -> ZoneInfo:
    """A time zone by its name."""
    try:
        return ZoneInfo(text)
    except (ValueError, OSError, KeyError):
        raise argparse.ArgumentTypeError(f"{text} is no time zone, such as Europe/Berlin") from None


def add_command(commands: Commands) -> None:
    """`tsq load`."""
    parser = commands.add_parser("load", help="commit the rows of a file, or print INSERTs of them")
    parser.add_argument("file", metavar="FILE", help="the file, or - for standard input")
    parser.add_argument("--table", required=True, help="the hypertable")
    parser.add_argument("--into", metavar="FOLDER", type=Path, help="commit the rows; without it INSERTs are printed")
    add_format(parser)
    add_meaning(parser)
    add_sending(parser)
    parser.set_defaults(call=load)


def add_format(parser: argparse.ArgumentParser) -> None:
    """How the file is written."""
    parser.add_argument(
        "--format", choices=FORMATS, help="without it the name's end tells: .ndjson, .jsonl, .lp; else CSV"
    )
    columns = (
        "the table's columns in the order of the file's, one without a name is left out; or NAME=KEY,.. by its names"
    )
    parser.add_argument("--columns", metavar="NAME,..", help=columns)
    parser.add_argument("--header", action="store_true", help="the first line of CSV holds names, and isn't a row")
    delimiter = "what stands between the cells of CSV, instead of a comma"
    parser.add_argument("--delimiter", type=character, default=",", metavar="CHARACTER", help=delimiter)
    parser.add_argument("--encoding", default="utf-8-sig", metavar="NAME", help="instead of UTF-8, such as latin-1")
    parser.add_argument("--measurement", metavar="NAME", help="of line protocol; without it the name of the table")


def add_meaning(parser: argparse.ArgumentParser) -> None:
    """What the cells mean."""
    parser.add_argument("--time", metavar="NAME", help="the time column; without it the first one")
    scale_option(parser, "multiply a column by 10 so many times, such as temp=2; may be given several times")
    times_option(parser, "times are dates, such as 2024-01-31T12:00:00Z, and become s, ms or us since 1970")
    parser.add_argument("--zone", type=zone, metavar="NAME", help="the zone of dates without one, instead of UTC")
    doubled = "which one a date means in the hour that clocks show twice; without it the first"
    parser.add_argument("--doubled", choices=["first", "second"], default="first", help=doubled)
    parser.add_argument("--epoch", choices=["s", "ms", "us", "ns"], help="times are numbers of this unit since 1970")
    null = "a cell that is NULL, beside an empty one and null, such as --null=-; may be given several times"
    parser.add_argument("--null", action="append", default=[], metavar="TEXT", help=null)
    texts = "columns of texts, which get numbers in tsctl.names"
    parser.add_argument("--texts", metavar="NAME,..", default="", help=texts)


def add_sending(parser: argparse.ArgumentParser) -> None:
    """How the rows are parted, and what is left out."""
    gap = "no two neighbors in time in a commit, or a statement, lie further apart"
    parser.add_argument("--gap", type=distance, metavar="N", help=gap)
    block = "with --into: a commit holds so much time; without it a day, or a chunk if times have no unit"
    parser.add_argument("--block", type=width, metavar="N", help=block)
    once = parser.add_mutually_exclusive_group()
    once.add_argument("--once", action="store_true", help="with --into: leave out rows that are there already")
    once.add_argument(
        "--again", action="store_true", help="with --into: load an input that was loaded already once more"
    )
    aside = "put rows that can't be read into this file, and load the others"
    parser.add_argument("--skip-broken", metavar="FILE", help=aside)
    parser.add_argument("--session", default="load", help="the session that puts them in")


# ---- the command


def load(options: argparse.Namespace) -> int:
    """Prints the statements, or commits the rows, once all of the file was read."""
    options.table = options.table.lower()
    options.format = options.format or looks_like(options.file)
    for name, given in [("--once", options.once), ("--again", options.again), ("--block", options.block)]:
        if given and not options.into:
            raise Trouble(f"{name} needs --into")
    files = ExitStack()
    with files:
        text = files.enter_context(opened(options.file, options.encoding))
        status = load_into(options, text, files) if options.into else load_printed(options, text, files)
    return status


def load_printed(options: argparse.Namespace, text: TextIO, files: ExitStack) -> int:
    """Prints the statements."""
    plan = plan_of(options, text, Names(Path()), None)
    rows: list[tuple[int, str]] = []
    aside = Aside(options.skip_broken, options.file, plan.source.head, files)
    read = read_rows(plan, options.null, "NULL", lambda time, row: rows.append((time, ", ".join(row))), aside.add)
    read.say()
    if read.broken and not options.skip_broken:
        return 2
    names = ", ".join(column.name for column in plan.columns if column)
    print_statements(f"{options.session}: INSERT INTO {options.table} ({names}) VALUES ", rows, options.gap)
    tell_apart(plan, aside)
    return 0


def tell_apart(plan: Plan, aside: Aside) -> None:
    """Says what of the input isn't loaded, and which times had two meanings."""
    if aside.count:
        say(f"rows put aside into {aside.name}: {aside.count}")
    if plan.times.doubled:
        which = "second" if plan.times.fold else "first"
        say(
            f"rows in an hour that clocks in {plan.times.zone} show twice: {plan.times.doubled}, taken as the"
            f" {which} one"
        )
    if isinstance(plan.source, Objects) and plan.source.others:
        say(f"keys that aren't loaded: {', '.join(sorted(plan.source.others))}")
    if isinstance(plan.source, LineProtocol) and plan.source.elsewhere:
        say(f"lines of other measurements than {plan.source.measurement}: {plan.source.elsewhere}")


def width_of_blocks(options: argparse.Namespace, unit: Unit | None, table: Hypertable) -> int:
    """How much time a commit holds."""
    if options.block:
        return int(options.block)
    return SECONDS_OF_DAY * TICKS[unit] if unit else table.interval


def load_into(options: argparse.Namespace, text: TextIO, files: ExitStack) -> int:
    """Commits the rows of a file into a folder."""
    require_free(options.into, "end it first")
    names = Names.read(options.into)
    table = hypertable_of(options.into, options.table)
    scales = dict_of_scales(options)
    if contradiction := names.would_contradict(scales, options.times):
        raise Trouble(contradiction)
    plan = plan_of(options, text, names, table)
    notes, position = Notes.read(options.into), position_in(options.into / JOURNAL)
    known = [note for note in notes.of(table.name) if not is_absent(note, position)]
    manner = manner_of(options, width_of_blocks(options, plan.times.unit, table))
    intake = files.enter_context(Intake(options.file, table.name, manner, known))
    aside = Aside(options.skip_broken, options.file, plan.source.head, files)
    read = read_rows(plan, options.null, "null", lambda time, row: intake.add(time, ",".join(row)), aside.add)
    read.say()
    if read.broken and not options.skip_broken:
        say("nothing is loaded")
        return 2
    intake.finish()
    remember(names, plan.texts, scales, options.times)
    status = commit(options, table, intake, plan.at, notes) if read.rows else 0
    tell_apart(plan, aside)
    print_summary(read, intake, aside, plan.times.unit)
    return status


def manner_of(options: argparse.Namespace, width: int) -> Manner:
    """How the input is loaded."""
    return Manner(ONCE if options.once else AGAIN if options.again else PLAIN, width, options.gap)


def remember(names: Names, texts: list[Texts], scales: dict[str, int], times: Unit | None) -> None:
    """Puts into the folder's dictionary what the rows need."""
    new = [(column.column, text) for column in texts for text in column.new()]
    names.remember(new, scales, times)
    for column in texts:
        for text, number in column.new().items():
            if names.number_of(column.column, text) != number:
                raise Trouble("tsctl.names was changed meanwhile by another load: nothing is loaded, try again")


def commit(options: argparse.Namespace, table: Hypertable, intake: Intake, at: int, notes: Notes) -> int:
    """Commits the blocks, and gives the exit status. A load that was broken off goes on."""
    try:
        with Sender(options.into, table.name, table.time, options.session, options.once) as sender:
            check(sender, intake, notes)
            tell_known(intake)
            for stretch in intake.stretches:
                send(sender, stretch.parts.blocks(options.gap, at), at, stretch.note, notes)
            for note, state in intake.replaced():
                note.state = state
                notes.write(note)
            return 0
    except Ended as ended:
        say(f"tsctl has ended with status {ended.status}: `tsctl --in {options.into} why` says more")
        status = ended.status or 2
    except KeyboardInterrupt:
        status = 130
    say("broken off: the same command goes on where it was")
    return status


def tell_known(intake: Intake) -> None:
    """Says what of the input was loaded before, and which loads wait to be continued."""
    if before := intake.before:
        name = f", as {before.name}" if before.name != intake.name else ""
        if intake.stretches:
            say(f"the first {before.size} rows were loaded already{name}; --again loads them once more")
        else:
            say(f"this input was loaded already{name}; --again loads it once more")
    for note in intake.elsewhere():
        say(f"a load of {note.name} was broken off after {note.rows} rows: the same command continues it")


def print_summary(read: Read, intake: Intake, aside: Aside, unit: Unit | None) -> None:
    """Prints what was loaded: now, or before if that was all."""
    notes = [stretch.note for stretch in intake.stretches] or ([intake.before] if intake.before else [])
    print(f"rows {sum(note.rows for note in notes)} of {read.rows}")
    if read.first is not None and read.last is not None:
        print(f"times {time_text(read.first, unit)}..{time_text(read.last, unit)}")
    print(f"NULL {read.nulls}")
    is_once = intake.manner.mode == ONCE
    print(f"duplicates {sum(note.duplicates for note in notes)} {'left out' if is_once else 'loaded'}")
    print(f"put aside {aside.count}")
    commits = [commit_text(*pair) for note in notes for pair in note.commits]
    print("commits " + (", ".join(commits) or "none"))


def commit_text(first: int, last: int) -> str:
    """The positions of commits that follow each other."""
    return f"@{first}" if first == last else f"@{first}..@{last}"
