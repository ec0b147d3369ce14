"""Days, weeks, months, quarters and years of a time zone."""
from __future__ import annotations

from dataclasses import dataclass
from datetime import date, datetime, time as clock_time, timedelta

from .messages import Trouble
from .moments import OUTSIDE, Clock

KINDS = ("day", "week", "month", "quarter", "year")
MONTHS = {"month": 1, "quarter": 3, "year": 12}
DAYS = {"day": 1, "week": 7}


@dataclass(frozen=True)
class Periods:
    """The periods of a kind, by the dates of a clock."""

    kind: str
    clock: Clock

    def first_day(self, day: date) -> date:
        """The first day of the period that has this day."""
        if self.kind in DAYS:
            return day - timedelta(days=day.weekday() % DAYS[self.kind])
        months = MONTHS[self.kind]
        return day.replace(month=(day.month - 1) // months * months + 1, day=1)

    def next_first_day(self, first: date) -> date:
        """The first day of the period after the one with this first day."""
        try:
            if self.kind in DAYS:
                return first + timedelta(days=DAYS[self.kind])
            month = first.month - 1 + MONTHS[self.kind]
            return date(first.year + month // 12, month % 12 + 1, 1)
        except (OverflowError, ValueError):
            raise Trouble(OUTSIDE) from None

    def time_of(self, day: date) -> int:
        """The time at which a day begins. If a change of the clocks leaves its midnight out, that is the change."""
        return self.clock.time(datetime.combine(day, clock_time()))

    def span(self, time: int) -> tuple[int, int]:
        """The start and the end of the period that holds a time."""
        first = self.first_day(self.clock.local(time).date())
        return self.time_of(first), self.time_of(self.next_first_day(first))

    def name(self, start: int) -> str:
        """A period as people write it, by its start."""
        first = self.clock.local(start).date()
        if self.kind == "quarter":
            return f"{first.year:04}-Q{(first.month + 2) // 3}"
        return first.isoformat()[: {"year": 4, "month": 7}.get(self.kind, 10)]

    def moment(self, start: int) -> str:
        """The start of a period for programs: its date with the zone's distance from UTC, and with `Z` for UTC."""
        text = self.clock.local(start).isoformat()
        return text.removesuffix("+00:00") + "Z" if self.clock.zone.key == "UTC" else text
