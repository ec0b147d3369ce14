"""`GET /metrics` of `tsq serve`, as Prometheus reads it."""
from __future__ import annotations

import json
import re
import threading
import time
from collections import deque
from collections.abc import Iterable

from . import programs
from .cells import UNITS
from .policies import Policies
from .replies import Range
from .samples import FirstRows
from .views import Answer, Question, Views

KIND = "text/plain; version=0.0.4; charset=utf-8"
# Rows a second are those of so many seconds.
WINDOW = 60.0
# Pending refreshes are read from the journal, at most once in so many seconds.
SECONDS_BETWEEN_CHECKS = 10.0
PENDING = re.compile(r"PENDING \d+ (\w+) ")


class Rate:
    """How fast a count grows."""

    def __init__(self, count: int) -> None:
        self.guard = threading.Lock()
        self.seen: deque[tuple[float, int]] = deque([(time.monotonic(), count)])

    def take(self, count: int) -> float:
        """Takes the present count, and gives the growth a second since about a minute."""
        now = time.monotonic()
        with self.guard:
            self.seen.append((now, count))
            while len(self.seen) > 2 and self.seen[1][0] <= now - WINDOW:
                self.seen.popleft()
            since, before = self.seen[0]
        return (count - before) / max(now - since, 0.001)


class Metrics:
    """What is measured of a server."""

    def __init__(self, views: Views, policies: Policies | None) -> None:
        self.views = views
        self.policies = policies
        views.dictionary.update()
        self.rate = Rate(views.dictionary.roster.inserted)
        self.guard = threading.Lock()
        self.checked = -SECONDS_BETWEEN_CHECKS
        self.pending: dict[str, int] = {}

    def text(self) -> bytes:
        """All of it."""
        sessions = self.views.sessions
        lines = sample("up", "Whether tsctl runs", "gauge", [("", int(sessions.program is not None))])
        lines += sample("position", "Events in the journal", "gauge", [("", sessions.position)])
        lines += sample("statements_total", "Statements that were answered", "counter", [("", sessions.statements)])
        self.views.dictionary.update()
        rows = self.views.dictionary.roster.inserted
        lines += sample("rows_inserted_total", "Rows inserted since the last image", "counter", [("", rows)])
        rate = round(self.rate.take(rows), 3)
        lines += sample("rows_per_second", f"Rows inserted a second, over {WINDOW:g} s", "gauge", [("", rate)])
        return "".join(line + "\n" for line in lines + self.of_aggregates() + self.of_policies()).encode()

    def of_aggregates(self) -> list[str]:
        """What is stale and what is pending, by aggregate."""
        views = sorted(self.views.sessions.schema.sources)
        found = [(label("aggregate", view), json.loads(self.stale(view))) for view in views]
        lines = sample("stale_ranges", "Stale ranges", "gauge", [(name, it["ranges"]) for name, it in found])
        unit = self.views.dictionary.unit()
        if unit:
            seconds = [(name, it["length"] / UNITS[unit]) for name, it in found]
            lines += sample("stale_seconds", "Time that is stale, from the first row on", "gauge", seconds)
            dropped = [(name, it["dropped"] / UNITS[unit]) for name, it in found]
            lines += sample("dropped_seconds", "Time of dropped rows that the aggregate keeps", "gauge", dropped)
            marks = [(name, it["watermark"] / UNITS[unit]) for name, it in found if it["watermark"] is not None]
            lines += sample("watermark_seconds", "Watermark, since 1970", "gauge", marks)
        pending = self.pending_by_view()
        counts = [(label("aggregate", view), pending.get(view, 0)) for view in views]
        return lines + sample("pending_refreshes", "Refreshes that were cut and not finished", "gauge", counts)

    def stale(self, view: str) -> bytes:
        """The stale ranges of an aggregate: how many, and how long they are together."""
        keep, output, question = FirstRows(1), self.views.known(view), Question(view)
        return self.views.sessions.look(("stale", view), lambda: self.views.read(question, output, keep), written)

    def pending_by_view(self) -> dict[str, int]:
        """How many refreshes are pending, as `tsctl check` reads the journal."""
        with self.guard:
            if time.monotonic() - self.checked < SECONDS_BETWEEN_CHECKS:
                return self.pending
            self.checked = time.monotonic()
            _, output = programs.call(["check"], b"", self.views.sessions.folder)
            names = [found[1] for found in map(PENDING.match, output.decode("ascii", "replace").split("\n")) if found]
            self.pending = {name: names.count(name) for name in names}
            return self.pending

    def of_policies(self) -> list[str]:
        """When each policy ran, and whether it was refused then."""
        policies = self.policies.policies if self.policies else []
        ran = [(label("policy", it.statement), int(it.ran)) for it in policies if it.ran is not None]
        refused = [(label("policy", it.statement), int(it.is_refused)) for it in policies]
        lines = sample("policy_last_run_seconds", "When a policy ran last, since 1970", "gauge", ran)
        return lines + sample("policy_refused", "Whether it was refused then", "gauge", refused)


def written(answer: Answer) -> bytes:
    """What is stale in an answer, and what it keeps of dropped rows, as JSON."""
    reply = answer.told.reply
    first = first_time(reply.rows)
    lengths = {"length": length_of(reply.stale, first), "dropped": length_of(reply.dropped, first)}
    return json.dumps({"ranges": len(reply.stale), "watermark": answer.watermark} | lengths).encode()


def length_of(ranges: list[Range], first: int | None) -> int:
    """How long ranges are together, from the first row on."""
    return sum(max(0, high - bound_of(low, high, first)) for low, high in ranges)


def bound_of(low: int | None, high: int, first: int | None) -> int:
    """The start of a stale range. One that begins at the least time begins at the first row."""
    return low if low is not None else high if first is None else min(first, high)


def first_time(rows: list[list[str]]) -> int | None:
    """The time of the first row, if there is one."""
    return int(rows[0][0]) if rows else None


def label(name: str, text: str) -> str:
    """A label with its value."""
    escaped = text.replace("\\", "\\\\").replace('"', '\\"').replace("\n", "\\n")
    return f'{{{name}="{escaped}"}}'


def sample(name: str, meaning: str, kind: str, values: Iterable[tuple[str, float]]) -> list[str]:
    """The lines of a metric, and none if it has no value."""
    lines = [f"tsctl_{name}{labels} {value:.15g}" for labels, value in values]
    return [f"# HELP tsctl_{name} {meaning}.", f"# TYPE tsctl_{name} {kind}", *lines] if lines else []
