"""Options that several commands have, and how their values are read."""
from __future__ import annotations

import argparse
import re
from pathlib import Path
from typing import TYPE_CHECKING

MOST_POWER = 30
NAME = re.compile(r"[a-z_][a-z0-9_]{0,62}")
JOURNAL = "tsctl.journal"
# What `parser.add_subparsers` gives.
if TYPE_CHECKING:
    Commands = argparse._SubParsersAction[argparse.ArgumentParser]
else:
    Commands = argparse._SubParsersAction


def scale(text: str) -> tuple[str, int]:
    """A column and a power of ten, such as `temp=2`."""
    name, _, power = text.partition("=")
    if not name or not power.isdecimal() or int(power) > MOST_POWER:
        raise argparse.ArgumentTypeError(f"{text}: wanted is NAME=N, with N from 0 to {MOST_POWER}")
    return name, int(power)


def places(text: str) -> int:
    """A number of digits."""
    if not text.isdecimal() or len(text) > 3:
        raise argparse.ArgumentTypeError(f"{text}: wanted is a number from 0 to 999")
    return int(text)


def names(text: str) -> list[str]:
    """Names of columns, parted by commas."""
    found = text.lower().split(",")
    if not all(NAME.fullmatch(name) for name in found):
        raise argparse.ArgumentTypeError(f"{text}: wanted are names of columns, parted by commas")
    return found


def folder_option(parser: argparse.ArgumentParser) -> None:
    """The folder that a command works in."""
    parser.add_argument("--in", dest="folder", metavar="FOLDER", help="the folder of the journal, instead of this one")


def snapshot_option(
    parser: argparse.ArgumentParser, meaning: str = "a copy of the journal is read; this command always does so"
) -> None:
    """That a copy of the journal is asked, whoever holds it."""
    parser.add_argument("--snapshot", action="store_true", help=meaning)


def journal_option(parser: argparse.ArgumentParser) -> None:
    """The journal that a command reads: a file, or that of a folder."""
    parser.add_argument("journal", nargs="?", metavar="JOURNAL", help=f"the file; {JOURNAL} if it is left out")
    folder_option(parser)


def journal_of(arguments: argparse.Namespace) -> str:
    """The file that `journal_option` names. A relative one is in the folder of `--in`."""
    return str(Path(arguments.folder or "") / (arguments.journal or JOURNAL))


def times_option(parser: argparse.ArgumentParser, meaning: str) -> None:
    """The unit of times."""
    parser.add_argument("--times", choices=["s", "ms", "us"], help=meaning)


def scale_option(parser: argparse.ArgumentParser, meaning: str) -> None:
    """Powers of ten by which columns are multiplied or divided."""
    parser.add_argument("--scale", type=scale, action="append", default=[], metavar="NAME=N", help=meaning)


def style_options(parser: argparse.ArgumentParser) -> None:
    """How answers are written."""
    forms = parser.add_mutually_exclusive_group()
    forms.add_argument("--csv", dest="form", action="store_const", const="csv", help="answers as CSV")
    rows = "answers as JSON, an object a row"
    forms.add_argument("--json", dest="form", action="store_const", const="json", help=rows)
    answers = "replies as JSON, an object each, with the rows and the stale ranges of an answer"
    forms.add_argument("--json=answers", dest="form", action="store_const", const="answers", help=answers)
    times_option(parser, "print times as dates in UTC; times are seconds, milliseconds or microseconds since 1970")
    parser.add_argument("--places", type=places, metavar="N", help="digits after the point of averages that don't end")
    parser.add_argument("--fractions", action="store_true", help="in CSV and JSON, averages as fractions too")
    strings = "in JSON, numbers as strings, since many readers round them"
    parser.add_argument("--strings", action="store_true", help=strings)
    scale_option(parser, "divide a column by 10 so many times, such as mean=2; may be given several times")
    texts = "columns whose new texts get numbers in tsctl.names when they are inserted"
    parser.add_argument("--texts", type=names, default=[], metavar="NAME,..", help=texts)
    parser.add_argument("--show", action="store_true", help="say what is sent for dates and texts in statements")
    folder_option(parser)
