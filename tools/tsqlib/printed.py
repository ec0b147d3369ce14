"""The statements that `tsq load` prints: rows in the order in which they come, and late ones apart."""
from __future__ import annotations

import math

from .messages import say
from .programs import MOST_INPUT
from .sending import MOST_ROWS
from .statements import MOST_LINE

Row = tuple[int, str]


class Statements:
    """Puts rows into statements of as many as fit."""

    def __init__(self, front: str) -> None:
        self.front = front
        self.done: list[str] = []
        self.begin()

    def begin(self) -> None:
        """Begins a statement without rows."""
        self.rows: list[str] = []
        self.size = len(self.front)

    def add(self, row: str) -> bool:
        """Puts a row in, and says whether it begins a statement."""
        text = f"({row})"
        if len(self.rows) == MOST_ROWS or self.size + 2 + len(text) > MOST_LINE:
            self.end()
        self.rows.append(text)
        self.size += len(text) + 2
        return len(self.rows) == 1

    def end(self) -> None:
        """Ends the statement, if it has rows."""
        if self.rows:
            self.done.append(self.front + ", ".join(self.rows))
        self.begin()


def put_in_order(rows: list[Row], gap: int | None, statements: Statements) -> tuple[list[Row], int]:
    """Puts the rows into statements as they come, with a new one after a gap, if one is asked for. Gives those
    that are left because they lie before the statement that they would stand in, and the greatest step between two
    that do not."""
    late: list[Row] = []
    step = 0
    low: int | None = None
    high = last = 0
    for row in rows:
        time, text = row
        if low is not None and time < low:
            late.append(row)
            continue
        if gap is not None and low is not None and time - high > gap:
            statements.end()
        step = max(step, time - last) if low is not None else 0
        low, high = (time, time) if statements.add(text) or low is None else (low, max(high, time))
        last = time
    statements.end()
    return late, step


def put_late(rows: list[Row], gap: float, statements: Statements) -> None:
    """Puts late rows into statements by their times, those further apart than the gap into different ones."""
    last: int | None = None
    for time, text in sorted(rows, key=lambda row: row[0]):
        if last is not None and time - last > gap:
            statements.end()
        statements.add(text)
        last = time
    statements.end()


def print_statements(front: str, rows: list[Row], gap: int | None) -> None:
    """Prints the rows as statements."""
    statements = Statements(front)
    late, step = put_in_order(rows, gap, statements)
    in_order = len(statements.done)
    # Of a file that begins with its latest row there is no step to go by.
    put_late(late, (step or math.inf) if gap is None else gap, statements)
    print("".join(f"{statement}\n" for statement in statements.done), end="")
    if late:
        say(f"late rows: {len(late)} of {len(rows)}; statements of their own: {len(statements.done) - in_order}")
    size = sum(len(statement) + 1 for statement in statements.done)
    if size > MOST_INPUT:
        say(f"{size} bytes, and a run takes {MOST_INPUT}: --into FOLDER takes any number")
