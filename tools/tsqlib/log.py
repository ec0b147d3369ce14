"""`tsq log`: what `tsctl log` prints, read by `docs/JOURNAL.md`."""
from __future__ import annotations

import argparse

from .history import follow
from .journal import Damaged
from .messages import say
from .options import Commands, journal_of, journal_option
from .programs import read

DAMAGED = 6


def add_command(commands: Commands) -> None:
    """`tsq log`."""
    parser = commands.add_parser("log", help="print what `tsctl log` prints, by a separate reader")
    journal_option(parser)
    parser.set_defaults(call=log)


def log(options: argparse.Namespace) -> int:
    """Prints a line for each event of a journal. Of one that is damaged nothing is printed but its place."""
    try:
        lines = [line for _, _, line in follow(read(journal_of(options)))]
    except Damaged as damaged:
        say(str(damaged))
        return DAMAGED
    print("".join(line + "\n" for line in lines), end="")
    return 0
