"""The program that answers at a prompt: started when it is needed, ended by Ctrl-C if a query takes too long."""
from __future__ import annotations

import re
import signal
from collections import deque
from collections.abc import Iterable, Iterator
from contextlib import contextmanager
from pathlib import Path
from types import FrameType
from typing import Any

from .follower import Follower, asks
from .journal import LEAST_TIME, MOST_TIME
from .messages import Trouble, say
from .programs import Interrupted, Program
from .replies import Keep, Reply, cells_of
from .schema import Schema
from .seats import Owner, Seat
from .statements import SESSION

# The session in which statements run that name none, and that of questions of the prompt itself.
ME = "me"
PROBE = "tsq_probe"
FIRST_WORD = re.compile(r"[ \t]*([A-Za-z]*)")
PROBES = (LEAST_TIME, MOST_TIME)


def nothing_of(texts: Iterable[str]) -> list[Any]:
    """None of the rows."""
    deque(texts, maxlen=0)
    return []


class Stopped(Exception):
    """The reply to a statement isn't awaited any longer, and the program has ended."""


class Patience:
    """Counts Ctrl-C while a reply is awaited. If there is a notice, the first one lets it be said, and the second one
    ends the waiting; else the first one does."""

    def __init__(self) -> None:
        self.count = 0
        self.most = 0
        self.notice = ""

    def is_given_up(self) -> bool:
        """Whether the reply is awaited no longer."""
        if self.notice and self.count == 1:
            # It is taken out before it is said: the next one may come meanwhile.
            notice, self.notice = self.notice, ""
            say(notice)
        return self.count > self.most

    def add(self, _number: int, _frame: FrameType | None) -> None:
        """Counts one."""
        self.count += 1

    @contextmanager
    def counting(self, notice: str) -> Iterator[None]:
        """Counts while the body runs."""
        self.count, self.most, self.notice = 0, int(bool(notice)), notice
        old = signal.signal(signal.SIGINT, self.add)
        try:
            yield
        finally:
            signal.signal(signal.SIGINT, old)


class Talk:
    """A program over a folder, or over a copy of its journal that follows it, and what its sessions hold."""

    def __init__(self, folder: str | Path, follower: Follower | None = None) -> None:
        self.folder = follower.folder if follower else Path(folder)
        self.follower = follower
        self.patience = Patience()
        self.program: Program | None = None
        self.seats: dict[str, Seat] = {}
        # Statements that added policies, with their sessions.
        self.policies: list[tuple[str, str]] = []
        self.position: int | None = None

    # ---- what is held

    def held(self) -> str:
        """What would be lost with the program, in words; nothing if there is nothing."""
        found = [f"{seat.holds()} of session {name}" for name, seat in self.seats.items() if seat.holds()]
        return ", ".join(found)

    def has_block(self) -> bool:
        """Whether a session has an open block."""
        return any(seat.has_block for seat in self.seats.values())

    def learn(self, reply: Reply) -> None:
        """Takes what a reply tells of its session and of the position."""
        position = reply.position()
        if position is not None:
            self.position = max(position, self.position or 0)
        if not reply.line.session:
            return
        statement = reply.line.text[reply.line.front() :]
        found = FIRST_WORD.match(statement)
        name = reply.line.session
        seat = self.seats.setdefault(name, Seat(name, Owner("prompt", name)))
        seat.learn(found[1].lower() if found else "", reply.texts())
        if reply.texts()[0].startswith("POLICY "):
            self.policies.append((reply.line.session, statement.strip()))

    # ---- the program

    def ready(self) -> Program:
        """The program. A copy is brought up to date first, unless a block is open."""
        if self.follower and not self.has_block() and self.follower.has_news():
            self.end()
            self.follower.step()
        if self.program is None:
            self.program = Program(self.folder, self.patience.is_given_up)
        return self.program

    def end(self) -> int:
        """Ends the program, and gives its exit status: 0 if it didn't run."""
        status = self.program.end() if self.program else 0
        self.forget()
        return status

    def forget(self) -> None:
        """What the program held for its sessions is lost with it."""
        self.program = None
        self.seats, self.policies = {}, []

    def ask(self, raw: bytes, keep_rows: Keep = cells_of) -> Reply:
        """The reply to a line with its session."""
        text = raw.decode("utf-8", "replace")
        session = SESSION.match(text)
        statement = text[session.end() if session else 0 :]
        if self.follower and not asks(statement):
            raise Trouble("only questions are answered here, since another process holds the folder")
        with self.patience.counting(self.notice(statement)):
            try:
                program = self.ready()
                reply = program.ask(raw, 1, keep_rows)
            except Interrupted:
                raise Stopped(self.give_up(asks(statement))) from None
        self.learn(reply)
        return reply

    def notice(self, statement: str) -> str:
        """What is said at the first Ctrl-C, if the program isn't ended by it."""
        if not asks(statement):
            return "the statement is at work, and its reply is awaited; Ctrl-C again ends tsctl"
        held = self.held()
        return f"Ctrl-C again ends the query, and gives up {held}" if held else ""

    def give_up(self, is_question: bool) -> str:
        """Ends the program at once, and gives in words what that means."""
        held = self.held()
        if self.program:
            self.program.kill()
            self.program.end()
        self.forget()
        unknown = "tsctl was ended: \\d and a SELECT show whether the statement took effect"
        front = "the query was ended" if is_question else unknown
        return front + (f", which gave up {held}" if held else "")

    # ---- questions of the prompt itself

    def find_position(self) -> int | None:
        """The position of the journal."""
        begun = self.ask(f"{ME}: BEGIN READ ONLY".encode())
        self.ask(f"{ME}: COMMIT".encode())
        return begun.position()

    def stale_ranges(self, view: str) -> Reply:
        """An answer with the stale ranges of an aggregate, and no rows."""
        return self.ask(f"{PROBE}: SELECT * FROM {view}".encode(), nothing_of)

    def watermark(self, view: str, schema: Schema) -> int | None:
        """The watermark of an aggregate, and nothing if it has none yet.

        No statement tells it. But rows that wait in a block make all buckets below it stale, and none above it. So the
        last stale range of an answer in a block with a row at the least and one at the greatest time ends there. The
        block is given up, and makes no event.
        """
        source = schema.sources[view]
        table = schema.outputs[source]
        rows = [[time if place in table.times else 0 for place in range(len(table.names))] for time in PROBES]
        values = ", ".join("(" + ", ".join(map(str, row)) + ")" for row in rows)
        if self.follower:
            raise Trouble("the watermark can't be found in a copy that is only read")
        self.ask(f"{PROBE}: BEGIN".encode())
        try:
            self.ask(f"{PROBE}: INSERT INTO {source} VALUES {values}".encode())
            reply = self.ask(f"{PROBE}: SELECT * FROM {view}".encode(), nothing_of)
        finally:
            if self.program:
                self.ask(f"{PROBE}: ROLLBACK".encode())
        return reply.stale[-1][1] if reply.stale else None
