"""Who sits where: sessions of many clients in the few sessions that a program knows by name.

The program knows at most 64 sessions, and forgets none. So a client's session sits in one as long as the program holds
something for it: a block, a refresh, policies. A seat without such things is as good as new, and is given to the next
that asks.
"""
from __future__ import annotations

import re
import time
from collections import OrderedDict
from dataclasses import dataclass, field
from typing import NamedTuple

from .turns import Busy

SEATS = 60
# Sources whose requests are whole: nothing is held for them from one to the next.
WHOLE = ("serve", "reader")


class Owner(NamedTuple):
    """Whose a session is: where its lines come from, and its name there."""

    source: str
    name: str


@dataclass
class Seat:
    """A session of the program, who has it, and what the program holds for it."""

    name: str
    owner: Owner
    has_block: bool = False
    cuts: set[str] = field(default_factory=set)
    policies: int = 0
    # When it was last asked.
    used: float = field(default_factory=time.monotonic)

    def idle(self) -> float:
        """For how many seconds nobody has asked it."""
        return time.monotonic() - self.used

    def holds(self) -> str:
        """What would be lost with the program, in words; nothing if it is as good as new."""
        held = ["an open block"] * self.has_block + ["a refresh in phases"] * bool(self.cuts)
        return " and ".join(held + ["policies"] * bool(self.policies))

    def learn(self, word: str, texts: list[str]) -> None:
        """Takes what a statement that begins with this word changed, by its reply."""
        if texts[0].startswith("BEGIN"):
            self.has_block = True
        elif word in ("commit", "rollback") and not texts[0].startswith("FAULT"):
            self.has_block = False
        elif word == "refresh" and (found := re.match(r"(CUT|SNAP|FINISH) (\d+)", texts[0])):
            (self.cuts.discard if found[1] == "FINISH" else self.cuts.add)(found[2])
        elif texts[0].startswith("POLICY "):
            self.policies += 1


class Seats:
    """The sessions of one program. Those that were asked last stand at the end."""

    def __init__(self) -> None:
        self.free = [f"c{number}" for number in range(SEATS, 0, -1)]
        self.taken: OrderedDict[Owner, Seat] = OrderedDict()

    def seat_of(self, owner: Owner) -> Seat:
        """The seat of a client's session: its own, one that is free, or the longest unused one that holds nothing."""
        if owner not in self.taken:
            self.taken[owner] = Seat(self.free.pop() if self.free else self.give_up().name, owner)
        self.taken.move_to_end(owner)
        self.taken[owner].used = time.monotonic()
        return self.taken[owner]

    def give_up(self) -> Seat:
        """Takes a seat away from a session for which nothing is held."""
        for owner, seat in self.taken.items():
            if not seat.holds():
                return self.taken.pop(owner)
        raise Busy(f"{SEATS} sessions hold a block, a refresh or policies, and there are no more")

    def held(self) -> dict[Owner, str]:
        """What the program holds for clients, and for whom. What `serve` itself has it makes again."""
        return {owner: seat.holds() for owner, seat in self.taken.items() if seat.holds() and owner.source not in WHOLE}
