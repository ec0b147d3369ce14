"""Replays what sessions were told over one history, at the positions that their replies print.

`par` leaves it open which session comes first at each position. Its replies tell: each event has a number, and each
answer a position. So the lines of all sessions are run again, each at the positions that its replies name, and have
to give just these replies.
"""
import re
from collections.abc import Sequence
from dataclasses import dataclass, field

from lines import Line
from sessions import Course, Session, Store

MADE = re.compile(r"(?:TABLE|HYPERTABLE|VIEW|MODE|COMMIT) @(\d+)|FINISH \d+ @(\d+)")
CUT = re.compile(r"CUT (\d+) ")
REFRESH = re.compile(r"REFRESH (\d+) @(\d+) snap (\d+)")
LOOKED = re.compile(r"(?:NOTHING|ANSWER|BEGIN|POLICY \d+|SNAP \d+|FAULT E\d\d \w+) @(\d+)")
STOPPED = "FAULT E24 "


class Mismatch(Exception):
    """A reply isn't what the history explains."""


def positions_of(reply: str) -> list[int | None]:
    """At which positions the store calls behind a line of a reply were made. None is a call whose place isn't told."""
    if found := REFRESH.match(reply):
        cut, end, snapshot = map(int, found.groups())
        return [cut - 1, snapshot, end - 1]
    if found := MADE.match(reply):
        return [int(found[1] or found[2]) - 1]
    if found := CUT.match(reply):
        return [int(found[1]) - 1]
    if found := LOOKED.match(reply):
        return [int(found[1])]
    return [None] if reply == "QUEUED" else []


@dataclass
class Teller:
    """A session with its lines and all lines of its replies, without its name in front."""

    name: str
    lines: Sequence[Line]
    replies: Sequence[str]
    session: Session
    at: int = 0
    told: int = 0
    course: Course | None = None
    waiting: list[tuple[int | None, bool]] = field(default_factory=list)

    def is_done(self) -> bool:
        return self.at == len(self.lines) and self.course is None

    def begin(self) -> None:
        """Begins the next line."""
        self.course = self.session.course(self.lines[self.at])
        rest = self.replies[self.told :]
        self.waiting = [(position, text.startswith(STOPPED)) for text in rest for position in positions_of(text)]
        self.go(None)

    def go(self, position: int | None) -> None:
        """Goes on to the next store call of the line, or to its end."""
        assert self.course
        try:
            next(self.course) if position is None else self.course.send(position)
        except StopIteration:
            self.end_line()

    def end_line(self) -> None:
        given = self.session.replies
        told = list(self.replies[self.told : self.told + len(given)])
        if told != given:
            raise Mismatch(f"{self.name}: {self.lines[self.at].text!r}: expected {given}, given {told}")
        self.told += len(given)
        self.at += 1
        self.course = None

    def needs(self, end: int) -> tuple[int, bool]:
        """The position of the store call that comes next, and whether it found the journal stopped. One that isn't told
        comes as late as it can, since relations stay."""
        if not self.waiting:
            return self.session.position, False
        position, stopped = self.waiting[0]
        if position is None:
            later = [it for it, _ in self.waiting if it is not None]
            return (min(later[0], end) if later else end), False
        return position, stopped

    def step(self, end: int) -> bool:
        """Makes the next store call, if its position is there, and says whether it was made."""
        if self.course is None:
            self.begin()
            return True
        position, stopped = self.needs(end)
        if position > self.session.store.history.position:
            return False
        if position < self.session.position:
            line = self.lines[self.at].text
            raise Mismatch(f"{self.name}: {line!r}: position {position} behind {self.session.position}")
        self.session.store.has_failed |= stopped
        del self.waiting[:1]
        self.session.position = position
        self.go(position)
        return True


def replay(store: Store, told: Sequence[tuple[str, Sequence[Line], Sequence[str]]], end: int) -> None:
    """Replays the lines of sessions with the lines of their replies, up to the position at which the run ended."""
    tellers = [Teller(name, lines, replies, Session(store)) for name, lines, replies in told]
    waiting = tellers
    while waiting:
        moved = [teller for teller in waiting if teller.step(end)]
        waiting = [teller for teller in waiting if not teller.is_done()]
        if waiting and not moved:
            stuck, event = waiting[0], store.history.position + 1
            raise Mismatch(f"{stuck.name}: {stuck.lines[stuck.at].text!r}: nobody tells of event {event}")
    for teller in tellers:
        if teller.told != len(teller.replies):
            raise Mismatch(f"{teller.name}: nothing explains {teller.replies[teller.told]!r}")
    if store.history.position != end:
        raise Mismatch(f"the replies tell of {store.history.position} events, and there are {end}")
