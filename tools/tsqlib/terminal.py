"""What a terminal is: how wide, whether it has colors, and a pager for what is longer than it."""
from __future__ import annotations

import os
import shlex
import shutil
import subprocess
import sys
import textwrap
from collections.abc import Iterable

BOLD, RED, YELLOW, FAINT, PLAIN = "\x1b[1m", "\x1b[31m", "\x1b[33m", "\x1b[2m", "\x1b[0m"
MORE = "\u2026"
# -S cuts long lines and scrolls sideways, -R lets colors through, -F ends what fits, -X leaves it on the screen.
PAGER = "less -SRFX"


def is_terminal() -> bool:
    """Whether standard output is a terminal."""
    return sys.stdout.isatty()


def has_colors() -> bool:
    """Whether output may be colored."""
    return is_terminal() and not os.environ.get("NO_COLOR") and os.environ.get("TERM", "dumb") != "dumb"


def colored(text: str, *codes: str) -> str:
    """A text in these colors, if output has colors."""
    return "".join(codes) + text + PLAIN if codes and has_colors() else text


def size() -> tuple[int, int]:
    """How many columns and lines the terminal has."""
    found = shutil.get_terminal_size()
    return found.columns, found.lines


def wrapped(line: str, indent: str = "  ") -> list[str]:
    """A line of words in lines as wide as the terminal; as it is if output is no terminal."""
    if not is_terminal():
        return [line]
    width = max(40, size()[0] - 1)
    how = textwrap.TextWrapper(width, subsequent_indent=indent, break_long_words=False, break_on_hyphens=False)
    return how.wrap(line) or [line]


def cut(line: str, width: int) -> str:
    """A line that is at most so wide."""
    return line if len(line) <= width else line[: width - 1] + MORE


class Screen:
    """Prints tables: through a pager if they are longer than the terminal, else cut to its width."""

    def __init__(self) -> None:
        self.has_pager = True

    def pager(self) -> list[str] | None:
        """The words that call the pager, if there is one and someone can use it."""
        if not (self.has_pager and is_terminal() and sys.stdin.isatty()):
            return None
        words = shlex.split(os.environ.get("PAGER") or PAGER)
        return words if words and shutil.which(words[0]) else None

    def show(self, lines: Iterable[tuple[str, tuple[str, ...]]], hint: str = "") -> None:
        """Prints lines, each with its colors. `hint` is said if some were cut."""
        lines = list(lines)
        if not is_terminal():
            print(*(text for text, _ in lines), sep="\n")
            return
        width, height = size()
        pager = self.pager() if len(lines) >= height else None
        if pager and self.page(pager, [colored(text, *codes) for text, codes in lines]):
            return
        print(*(colored(cut(text, width), *codes) for text, codes in lines), sep="\n")
        if hint and any(len(text) > width for text, _ in lines):
            print(colored(hint, FAINT))

    @staticmethod
    def page(pager: list[str], lines: list[str]) -> bool:
        """Prints lines through the pager; gives whether that went well."""
        try:
            child = subprocess.Popen(pager, stdin=subprocess.PIPE, text=True, errors="replace")
        except OSError:
            return False
        try:
            child.communicate("\n".join(lines) + "\n")
        except (BrokenPipeError, KeyboardInterrupt):
            child.wait()
        return True
