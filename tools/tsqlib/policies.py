"""Policies by wall time: `tsq serve --policies FILE` adds them at its start, and sends `TICK` with the time of day."""
from __future__ import annotations

import re
import threading
import time
from dataclasses import dataclass
from datetime import datetime, timezone
from typing import Any

from .cells import UNITS, time_text
from .messages import Trouble
from .refusals import meanings
from .replies import FAULT, Reply, goes_on
from .scripts import begins_statement, given_of
from .seats import Owner
from .sessions import Sessions, Statement
from .statements import SESSION
from .turns import Stopped

OWNER = Owner("serve", "policies")
ADDERS = ("add_continuous_aggregate_policy", "add_retention_policy")
INTERVAL = re.compile(r"schedule_interval\s*=>\s*(\d+)", re.IGNORECASE)
MOST_POLICIES = 64


@dataclass
class Policy:
    """A policy: its statement, the line of the file, how often it is due, when it ran last, and the last line of the
    reply then."""

    statement: str
    number: int
    interval: int = 1
    ran: float | None = None
    ran_at: int | None = None
    text: str = ""
    is_refused: bool = False

    def is_due(self, now: int) -> bool:
        """Whether tsctl runs it at this time, as docs/SQL.md has it."""
        return self.ran_at is None or now - self.ran_at >= self.interval

    def take(self, now: int, texts: list[str]) -> None:
        """Takes the lines of its reply."""
        self.ran, self.ran_at = time.time(), now
        self.is_refused = FAULT.match(texts[-1]) is not None
        self.text = texts[-1]

    def told(self, unit: str) -> dict[str, Any]:
        """As an object of JSON."""
        ran = None if self.ran is None else datetime.fromtimestamp(int(self.ran), timezone.utc).isoformat()[:19] + "Z"
        did = in_words(self.text, unit)
        return {"statement": self.statement, "ran": ran, "did": did, "is_refused": self.is_refused}


def in_words(text: str, unit: str | None = None) -> str:
    """What a statement of a policy did, by the last line of its reply."""
    if found := re.match(r"REFRESH \d+ @(\d+) snap \d+ (\S+)\.\.(\S+)", text):
        low, high = (bound if bound == "min" else time_text(int(bound), unit) for bound in (found[2], found[3]))
        return f"refreshed {low}..{high} @{found[1]}"
    if text.startswith("NOTHING"):
        return "nothing to refresh"
    if found := re.match(r"COMMIT @(\d+) \+0 -(\d+)", text):
        return f"dropped {found[2]} rows @{found[1]}" if found[2] != "0" else "nothing to drop"
    if found := FAULT.match(text):
        return f"{found[1]} {found[2]}: {meanings().get(found[1], '')}"
    return text


def policies_in(script: bytes, name: str) -> list[Policy]:
    """The policies of a file: statements with or without a session, a line each or with `;` at their ends."""
    lines = [b"policies: " + raw if begins_statement(raw) and not SESSION.match(raw.decode("latin-1")) else raw
             for raw in script.split(b"\n")]  # fmt: skip
    found = []
    for given in given_of(b"\n".join(lines)):
        text = SESSION.sub("", given.raw.decode("utf-8", "replace"), count=1).strip().removesuffix(";").strip()
        words = re.findall(r"\w+", text)
        if len(words) < 2 or words[0].lower() != "select" or words[1].lower() not in ADDERS:
            raise Trouble(f"{name}: line {given.number} isn't SELECT {ADDERS[0]}(..) or SELECT {ADDERS[1]}(..)")
        found.append(Policy(" ".join(text.split()), given.number))
    if len(found) > MOST_POLICIES:
        raise Trouble(f"{name} has {len(found)} policies, and a session has at most {MOST_POLICIES}")
    return found


def interval_in(text: str) -> int:
    """The `schedule_interval` of a statement in which it is a number; 1 if it has none."""
    found = INTERVAL.search(text)
    return int(found[1]) if found else 1


def parts_of(reply: Reply) -> list[list[str]]:
    """The replies to the statements that a tick ran, each with its lines."""
    parts: list[list[str]] = []
    is_new = True
    for text in reply.texts()[1:]:
        if is_new:
            parts.append([])
        parts[-1].append(text)
        is_new = not goes_on(reply.line, text)
    return parts


class Policies:
    """Policies that run by wall time."""

    def __init__(self, sessions: Sessions, policies: list[Policy], unit: str, every: float) -> None:
        self.sessions = sessions
        self.policies = policies
        self.unit = unit
        self.every = every
        self.is_first = True
        sessions.beginnings.append(self.add)

    def add(self) -> None:
        """Adds them to a program that has just begun, which knows of no earlier run."""
        for policy in self.policies:
            policy.ran_at = None
            statement = self.sessions.translated(
                Statement(b"policies:", f" {policy.statement}".encode(), policy.number)
            )
            policy.interval = interval_in(statement.text())
            _, reply = self.sessions.put(OWNER, statement)
            fault = reply.fault()
            if fault and self.is_first:
                raise Trouble(f"the policy {policy.statement} is refused: {fault[0]} {fault[1]}")
            if fault:
                policy.is_refused, policy.text = True, reply.texts()[0]
        self.is_first = False

    def tick(self) -> None:
        """Runs those that are due at the present time."""
        now = int(time.time() * UNITS[self.unit])
        with self.sessions.turns:
            _, reply = self.sessions.put(OWNER, Statement(b":", f" TICK {now}".encode()))
            due = [policy for policy in self.policies if policy.is_due(now)]
            for policy, texts in zip(due, parts_of(reply)):
                policy.take(now, texts)
        self.sessions.news.tell()

    def run(self, ended: threading.Event) -> None:
        """Ticks until this is set. While no program runs there is nothing to do."""
        while True:
            try:
                self.tick()
            except (Stopped, Trouble):
                pass
            if ended.wait(self.every):
                return

    def told(self) -> dict[str, Any]:
        """As an object of JSON."""
        return {"every": self.every, "list": [policy.told(self.unit) for policy in self.policies]}
