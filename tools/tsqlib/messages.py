"""What tsq says on standard error, and what it can't go on with."""
from __future__ import annotations

import sys

FRONT = "tsq: "


class Trouble(Exception):
    """Something that tsq can't go on with, in a line for the caller."""


def say(line: str) -> None:
    """A line on standard error, after what was printed before it. It names the program once, also if a part that was
    called has named it already."""
    sys.stdout.flush()
    print(FRONT + line.removeprefix(FRONT), file=sys.stderr)
