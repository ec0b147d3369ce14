"""Which periods of a roll aren't up to date, or aren't whole."""
from __future__ import annotations

from dataclasses import dataclass

from .aggregates import Aggregate
from .asking import Shown
from .replies import Range
from .moments import Clock
from .rolling import Rolled


@dataclass(frozen=True)
class Edges:
    """Where a roll may end in the middle of a period: the bounds that were asked for, and the watermark of an aggregate
    that is materialized only."""

    low: int | None
    high: int | None
    watermark: int | None

    def cut(self, start: int, end: int, across: set[int], width: int, clock: Clock) -> str:
        """Why a period isn't whole, in words; nothing if it is."""
        reasons = []
        if self.low is not None and start < self.low < end:
            reasons.append(f"from {clock.text(self.low)} on")
        if self.high is not None and start < self.high < end:
            reasons.append(f"up to {clock.text(self.high)}")
        if self.watermark is not None and start < self.watermark < end:
            reasons.append(f"up to the watermark {clock.text(self.watermark)}")
        for bucket in sorted(across):
            if start <= bucket < end < bucket + width:
                reasons.append(f"with all of the bucket {clock.span((bucket, bucket + width))}")
            elif bucket < start < bucket + width:
                reasons.append(f"without its part of the bucket {clock.span((bucket, bucket + width))}")
        return ", ".join(reasons)


def meets(ranges: list[Range], start: int, end: int) -> bool:
    """Whether a period has a time of these ranges."""
    return any((low is None or low < end) and high > start for low, high in ranges)


@dataclass(frozen=True)
class State:
    """What is to be said of a period."""

    is_stale: bool
    is_dropped: bool
    cut: str

    def words(self) -> str:
        """In a table."""
        return ", ".join(["stale"] * self.is_stale + ["dropped"] * self.is_dropped + ["cut"] * bool(self.cut))

    def cells(self) -> list[str]:
        """For programs."""
        return [str(it).lower() for it in (self.is_stale, self.is_dropped, bool(self.cut))]


def edges_of(shown: Shown, aggregate: Aggregate, low: int | None, high: int | None) -> Edges:
    """Where a roll of an answer may end in the middle of a period."""
    return Edges(low, high, None if aggregate.is_real_time else shown.watermark)


def states_of(shown: Shown, rolled: Rolled, edges: Edges, width: int, clock: Clock) -> dict[int, State]:
    """What is to be said of each period, by its start."""
    return {start: State(meets(shown.late, start, end), meets(shown.dropped, start, end),
                         edges.cut(start, end, rolled.across, width, clock))
            for start, end in rolled.spans.items()}  # fmt: skip
