"""Shares one `tsctl run` among many clients: one statement at a time, each with its whole reply.

A client's session sits in one of the program's (`seats.py`). Names are exchanged on the way in and out, so no client
can speak as another one, whatever its statement says.
"""
from __future__ import annotations

import re
import threading
import time
from collections import deque
from collections.abc import Callable, Iterable, Iterator
from contextlib import suppress
from dataclasses import dataclass
from pathlib import Path
from typing import Any, NamedTuple

from . import programs, turns
from .answers import output_for
from .follower import asks
from .journal import LEAST_TIME, MOST_TIME
from .programs import Interrupted, Program
from .replies import Keep, Reply, cells_of, range_of
from .schema import Output, Schema, learn_folder
from .seats import Owner, Seat, Seats
from .statements import Line, before_comment
from .translation import NotSent
from .turns import Cache, News, Read, Stopped, Turns

# A run takes so many bytes, and is exchanged for another one before: at once, or where nothing is lost by it.
MOST_INPUT = programs.MOST_INPUT
ENOUGH_INPUT = 48_000_000
# Of an answer's stale ranges so many are kept; the others become one that holds them all.
MOST_RANGES = 2000
# A question may run so long, in seconds.
LONGEST = 60.0
ROWS_BETWEEN_LOOKS = 4096
# Between two looks for blocks that nobody uses.
SECONDS_BETWEEN_SWEEPS = 5.0
# For so many seconds a question runs whether its client is there or not.
SECONDS_ALONE = 1.0

FIRST_WORD = re.compile(r"[^:]*:[ \t]*([A-Za-z]*)")
SCHEMA_MADE = ("TABLE @", "HYPERTABLE @", "VIEW @", "MODE @")
PROBES = (LEAST_TIME, MOST_TIME)
LONGEST_FRONT = len("c60:")
PLACE = re.compile(r"(FAULT E\d\d \w+ at )(\d+)$")


class Ended(Stopped):
    """The program has ended. The statement that was put in, if one was, has perhaps taken effect."""

    def __init__(self, status: int, was_put: bool) -> None:
        super().__init__(f"tsctl has ended with status {status}")
        self.status = status
        self.was_put = was_put


class GivenUp(Stopped):
    """A question ran too long, or was to be stopped."""


class Lost(Stopped):
    """A session has lost what the program held for it."""


class Unsent(Stopped):
    """A date or a text in a statement has no number, so the statement wasn't sent."""


class Statement(NamedTuple):
    """A line without its end: the session's name with the colon, as the client wrote it or would have, and the rest;
    and its number there. A line that has no good session has no front, and an owner of no name."""

    front: bytes
    rest: bytes
    number: int = 1

    def text(self) -> str:
        """The statement, without the session."""
        return before_comment(self.rest).decode("utf-8", "replace")

    def line(self, session: str | None) -> Line:
        """The line as its client sees it."""
        return Line(self.number, session, before_comment(self.front + self.rest).decode("utf-8", "replace"))


class Told(NamedTuple):
    """A reply as the client's session gets it, its columns, and the position after it."""

    reply: Reply
    output: Output | None
    position: int


@dataclass
class Running:
    """A statement that is at work: since when, whether it may be given up, whether its client is still there, and
    whether somebody has stopped it."""

    since: float
    can_stop: bool
    is_wanted: Callable[[], bool]
    is_stopped: bool = False

    def seconds(self) -> float:
        """How long it runs."""
        return time.monotonic() - self.since


PROBER = Owner("serve", "watermark")
START = Owner("serve", "start")


def bounded_ranges(texts: Iterable[str]) -> list[Any]:
    """The stale ranges, of which the last one holds all that are too many: too much is named rather than too little."""
    kept: list[Any] = []
    for text in texts:
        low, high = range_of(text)
        if len(kept) == MOST_RANGES:
            low = kept.pop()[0]
        kept.append((low, high))
    return kept


def nothing_of(texts: Iterable[str]) -> list[Any]:
    """None of the rows."""
    deque(texts, maxlen=0)
    return []


class Sessions:
    """The sessions of all clients, over one program at a time."""

    def __init__(self, folder: str | Path, longest: float = LONGEST) -> None:
        self.folder = folder
        self.longest = longest
        self.schema = Schema()
        self.turns = Turns()
        self.news = News()
        self.cache = Cache()
        self.position = 0
        self.statements = 0
        self.refreshes = 0
        self.watermarks: dict[str, tuple[int, int | None]] = {}
        self.lost: dict[Owner, str] = {}
        self.program: Program | None = None
        self.seats = Seats()
        self.status: int | None = None
        self.endings = 0
        self.is_ending = False
        self.running: Running | None = None
        # Whether the client of the present turn is still there.
        self.is_wanted: Callable[[], bool] = lambda: True
        # Makes numbers of dates and texts in a line.
        self.in_numbers: Callable[[bytes, Schema], bytes] = lambda raw, _: raw
        # What is waited for before a program is started by hand.
        self.before_start: Callable[[], None] = lambda: None
        # What is done with each program before it takes statements.
        self.beginnings: list[Callable[[], None]] = []

    # ---- beginning and ending

    def start(self) -> None:
        """Starts a program, if none runs, and asks it for its position."""
        self.before_start()
        with self.turns:
            if self.program is None and not self.is_ending:
                self.begin()
        self.news.tell()

    def begin(self) -> None:
        """Starts a program, and reads again what the folder has: another run may have written there meanwhile."""
        self.program, self.seats, self.status = Program(self.folder, self.is_given_up), Seats(), None
        self.cache.clear()
        self.watermarks.clear()
        _, reply = self.put(START, Statement(b":", b" BEGIN READ ONLY"))
        self.put(START, Statement(b":", b" ROLLBACK"))
        self.position = reply.position() or 0
        schema = Schema()
        learn_folder(schema, Path(self.folder))
        # Whole at once: threads without a turn look at it.
        self.schema = schema
        for do in self.beginnings:
            do()

    def end(self) -> int:
        """Lets the statement that runs come to its reply, ends the program, and gives its status. A question that may
        be given up is."""
        self.is_ending = True
        self.stop_question()
        with self.turns:
            if self.program is not None:
                self.over(self.program.end())
        self.news.close()
        return self.status or 0

    def over(self, status: int) -> None:
        """The program has ended: what it held for sessions is lost."""
        self.lost |= {owner: f"{held}, since tsctl was started again" for owner, held in self.seats.held().items()}
        self.program, self.status = None, status
        self.endings += 1
        self.news.tell()

    def exchange(self, program: Program) -> None:
        """Ends a program and starts another one, since a run takes so many bytes and no more."""
        status = program.end()
        self.over(status)
        if status > 1:
            raise Ended(status, was_put=False)
        self.begin()

    # ---- questions that run too long

    def is_given_up(self) -> bool:
        """Whether what runs is a question that takes too long, or that somebody has stopped."""
        running = self.running
        return running is not None and running.can_stop and self.reason(running) is not None

    def reason(self, running: Running) -> str | None:
        """Why a question must be given up; nothing if it needn't."""
        if running.is_stopped:
            return "it was stopped"
        if running.seconds() > self.longest:
            return f"{self.longest:g} seconds are the most (--longest)"
        return None if running.seconds() < SECONDS_ALONE or running.is_wanted() else "its client has gone"

    def can_stop(self, owner: Owner, statement: Statement) -> bool:
        """Whether a statement may be given up: a question, and no session loses anything by it. A program that begins
        answers once it has read the journal, however long that takes."""
        return owner != START and asks(statement.text()) and not self.seats.held()

    def stop_question(self) -> bool:
        """Lets the question that runs be given up. Gives whether it will be: nothing may be lost by it."""
        running = self.running
        if running is None or not running.can_stop:
            return False
        running.is_stopped = True
        return True

    def checked(self, texts: Iterable[str]) -> Iterator[str]:
        """The lines of an answer, as long as it isn't given up."""
        for number, text in enumerate(texts, 1):
            if number % ROWS_BETWEEN_LOOKS == 0 and self.is_given_up():
                raise Interrupted
            yield text

    def give_up(self, program: Program, running: Running) -> GivenUp:
        """Kills a program that answers a question and starts another one. Questions change nothing."""
        why = f"the question was given up after {running.seconds():.0f} s: {self.reason(running)}"
        program.kill()
        self.over(program.end())
        if not self.is_ending:
            self.begin()
        return GivenUp(why)

    # ---- clients that have gone in a block

    def roll_back_idle(self, seconds: float) -> None:
        """Rolls back the blocks of clients that haven't been heard of for so long."""
        with self.turns:
            for owner, seat in list(self.seats.taken.items()):
                if self.program is None or self.is_ending:
                    return
                if owner.source == "client" and seat.has_block and seat.idle() > seconds:
                    self.put(owner, Statement(b":", b" ROLLBACK"))
                    self.lost[owner] = f"an open block, which it hasn't used for {seconds:g} seconds (--idle)"

    def watch_idle(self, seconds: float, ended: threading.Event) -> None:
        """Does so now and then, until this is set."""
        while not ended.wait(min(seconds, SECONDS_BETWEEN_SWEEPS)):
            with suppress(Stopped):
                self.roll_back_idle(seconds)

    # ---- statements

    def ask(
        self, owner: Owner, lines: list[Statement], keep: Callable[[], Keep], is_whole: bool = False,
        is_wanted: Callable[[], bool] = lambda: True,
    ) -> list[Told]:  # fmt: skip
        """The replies to lines of a session, with nobody else's between them. If they are to be a whole, no block
        that they open stays open. A question that isn't wanted any longer is given up."""
        with self.turns:
            self.is_wanted = is_wanted
            try:
                return self.ask_in_turn(owner, lines, keep)
            finally:
                self.is_wanted = lambda: True
                seat = self.seats.taken.get(owner)
                if is_whole and seat and seat.has_block and self.program is not None and not self.is_ending:
                    self.put(owner, Statement(b":", b" ROLLBACK"))

    def ask_in_turn(self, owner: Owner, lines: list[Statement], keep: Callable[[], Keep]) -> list[Told]:
        """The same, for one that has the turn."""
        told: list[Told] = []
        try:
            for line in lines:
                told.append(self.told(owner, line, keep()))
        except Stopped as stopped:
            stopped.told = told
            raise
        return told

    def told(self, owner: Owner, statement: Statement, keep: Keep) -> Told:
        """The reply to a line, as its session gets it: with its own name, number and places."""
        statement = self.translated(statement)
        seat, reply = self.put(owner, statement, keep)
        line = statement.line(owner.name or None)
        heads = [in_words_of(head, line, len(statement.front) - len(seat) - 1) for head in reply.heads]
        mine = reply._replace(line=line, heads=heads)
        return Told(mine, output_for(mine, self.schema) if mine.is_answer() else None, self.position)

    def translated(self, statement: Statement) -> Statement:
        """A statement with numbers instead of dates and texts."""
        try:
            raw = self.in_numbers(statement.front + statement.rest, self.schema)
        except NotSent as why:
            raise Unsent(f"line {statement.number} wasn't put in: {why}") from None
        size = len(statement.front)
        return statement._replace(front=raw[:size], rest=raw[size:])

    def put(self, owner: Owner, statement: Statement, keep: Keep = cells_of) -> tuple[str, Reply]:
        """Puts a line in, and learns from its reply. Gives the name of the seat too."""
        program = self.program_with_room(LONGEST_FRONT + len(statement.rest))
        if owner in self.lost:
            raise Lost(f"the session {owner.name} has lost {self.lost.pop(owner)}")
        seat = self.seats.seat_of(owner) if statement.front else None
        name = seat.name if seat else ""
        running = self.running = Running(time.monotonic(), self.can_stop(owner, statement), self.is_wanted)
        try:
            raw = (name + ":").encode() * bool(seat) + statement.rest
            reply = program.ask(raw, None, lambda texts: keep(self.checked(texts)), bounded_ranges)
        except programs.Ended as ended:
            self.over(ended.status)
            raise Ended(ended.status, was_put=True) from None
        except Interrupted:
            raise self.give_up(program, running) from None
        finally:
            self.running = None
        self.learn(seat, reply)
        return name, reply

    def program_with_room(self, size: int) -> Program:
        """The program that runs, for which a line of this size is within what a run takes."""
        if self.program is None or self.is_ending:
            raise Ended(self.status or 0, was_put=False)
        given = self.program.given
        if given + size > MOST_INPUT or given > ENOUGH_INPUT and not self.seats.held():
            self.exchange(self.program)
        assert self.program is not None
        return self.program

    def learn(self, seat: Seat | None, reply: Reply) -> None:
        """Takes what a reply tells: names, what the session holds, the position."""
        self.statements += 1
        texts = reply.texts()
        if seat:
            found = FIRST_WORD.match(reply.line.text)
            seat.learn(found[1].lower() if found else "", texts)
        if texts[0].startswith(SCHEMA_MADE):
            self.schema.learn(reply.line.tokens(), texts[0])
        self.refreshes += any(text.startswith(("REFRESH ", "FINISH ")) for text in texts)
        if (position := reply.position() or 0) > self.position:
            self.position = position
            self.cache.clear()
            self.news.tell()

    # ---- questions of serve itself

    def look(self, key: Any, read: Callable[[], Read], write: Callable[[Read], bytes]) -> bytes:
        """What `write` makes of what `read` gives at the present position. See `turns.look`."""
        return turns.look(self.turns, self.cache, key, read, write)

    def answer(self, question: str, keep: Keep) -> Told:
        """The answer to a question, for one that has the turn."""
        line = Statement(b"serve:", b" " + question.encode())
        return self.ask_in_turn(Owner("serve", "serve"), [line], lambda: keep)[0]

    def watermark(self, view: str) -> int | None:
        """The watermark of an aggregate, and nothing if it has none yet; for one that has the turn.

        No statement tells it. But rows that wait in a block make all buckets below it stale, and none above it: so the
        last stale range of an answer in a block with a row at the least and one at the greatest time ends there. The
        block is rolled back, and makes no event. The watermark moves by refreshes only, and never falls.
        """
        refreshes, known = self.watermarks.get(view, (-1, None))
        if refreshes != self.refreshes:
            known = self.find_watermark(view, known)
            self.watermarks[view] = (self.refreshes, known)
        return known

    def find_watermark(self, view: str, known: int | None) -> int | None:
        """Asks for the watermark, which doesn't lie below the one that is known."""
        source, shown = self.schema.sources.get(view), self.schema.outputs[view]
        if source is None:
            return None
        table = self.schema.outputs[source]
        rows = [[at if place in table.times else 0 for place in range(len(table.names))] for at in PROBES]
        values = ", ".join("(" + ", ".join(map(str, row)) + ")" for row in rows)
        where = "" if known is None else f" WHERE {shown.names[0]} >= {known}"
        self.put(PROBER, Statement(b":", b" BEGIN"))
        try:
            self.put(PROBER, Statement(b":", f" INSERT INTO {source} VALUES {values}".encode()))
            _, reply = self.put(PROBER, Statement(b":", f" SELECT * FROM {view}{where}".encode()), nothing_of)
        finally:
            if self.program is not None:
                with suppress(Stopped):
                    self.put(PROBER, Statement(b":", b" ROLLBACK"))
        return reply.stale[-1][1] if reply.stale else known


def in_words_of(head: str, line: Line, shift: int) -> str:
    """A line of a reply with the client's own session, number of the line, and place in it."""
    front, text = head.split(": ", 1)
    named = f"line {line.number}" if front.startswith("line ") else line.session
    return f"{named}: " + PLACE.sub(lambda found: f"{found[1]}{int(found[2]) + shift}", text)
