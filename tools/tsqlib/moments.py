"""Times as people give them and read them: in a unit since 1970 and a time zone, or as plain numbers."""
from __future__ import annotations

import re
from dataclasses import dataclass
from datetime import datetime, timedelta, timezone
from zoneinfo import ZoneInfo

from .cells import UNITS
from .replies import Range
from .journal import LEAST_TIME, MOST_TIME
from .messages import Trouble

EPOCH = datetime(1970, 1, 1, tzinfo=timezone.utc)
MICROSECOND = timedelta(microseconds=1)
NUMBER = re.compile(r"-?[0-9]{1,19}")
DATE = re.compile(r"[0-9]{4}-[0-9]{2}(?:-[0-9]{2}(?:[Tt ][0-9]{2}:[0-9]{2}(?::[0-9]{2}(?:\.[0-9]{1,6})?)?"
                  r"(?:[Zz]|[+-][0-9]{2}(?::?[0-9]{2})?)?)?)?")  # fmt: skip
OUTSIDE = "a time lies outside of the years 1 to 9999: is --times another unit than theirs?"


def zone_of(name: str) -> ZoneInfo:
    """The time zone of this name."""
    try:
        return ZoneInfo(name)
    except (OSError, ValueError, KeyError):
        raise Trouble(f"there is no time zone {name!r}: names are such as Europe/Berlin") from None


UTC = zone_of("UTC")


@dataclass(frozen=True)
class Clock:
    """Reads and writes times of a unit; plain numbers if there is none."""

    unit: str | None = None
    zone: ZoneInfo = UTC

    def ticks(self) -> int:
        """How many microseconds the unit has."""
        return UNITS["us"] // UNITS[self.unit or "us"]

    def local(self, time: int) -> datetime:
        """A time as a date in the zone."""
        try:
            return (EPOCH + time * self.ticks() * MICROSECOND).astimezone(self.zone)
        except (OverflowError, ValueError):
            raise Trouble(OUTSIDE) from None

    def time(self, moment: datetime) -> int:
        """The last time at or before a moment, which is in the zone if it names none."""
        try:
            if moment.tzinfo is None:
                moment = moment.replace(tzinfo=self.zone)
            return (moment.astimezone(timezone.utc) - EPOCH) // MICROSECOND // self.ticks()
        except (OverflowError, ValueError):
            raise Trouble(OUTSIDE) from None

    def read(self, text: str) -> int:
        """The time that a text gives: a number, or a date if there is a unit."""
        if NUMBER.fullmatch(text):
            return max(LEAST_TIME, min(int(text), MOST_TIME))
        try:
            if not DATE.fullmatch(text):
                raise ValueError
            moment = datetime.fromisoformat(f"{text}-01" if len(text) == 7 else re.sub("[Zz]$", "+00:00", text))
        except ValueError:
            raise Trouble(f"{text[:40]!r} is no time: wanted is a number, or a date such as 2024-01-31T12:00") from None
        if self.unit is None:
            raise Trouble(f"{text} is a date, and --times tells what times are")
        return self.time(moment)

    def text(self, time: int) -> str:
        """A time in words, as short as it is exact."""
        if self.unit is None:
            return str(time)
        moment = self.local(time).replace(tzinfo=None)
        if moment.microsecond:
            return moment.isoformat(" ")
        if moment.second:
            return moment.isoformat(" ", "seconds")
        return moment.isoformat(" ", "minutes") if moment.hour or moment.minute else moment.date().isoformat()

    def span(self, span: Range) -> str:
        """A range in words: days alone if it is of whole days, and the day once if it is of hours of one day."""
        texts = [self.text(time) for time in span if time is not None]
        if any(" " in text for text in texts):
            texts = [text if " " in text else f"{text} 00:00" for text in texts]
        low, high = texts if span[0] is not None else ("min", *texts)
        day, _, hour = high.partition(" ")
        return f"{low}..{hour if hour and low.startswith(f'{day} ') else high}"

    def spans(self, spans: list[Range], most: int) -> str:
        """Ranges in words, of which as many are named."""
        named = ", ".join(map(self.span, spans[:most]))
        return named + f", and {len(spans) - most} more" * (len(spans) > most)
