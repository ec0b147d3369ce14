"""Lengths of time in words, such as `1 hour` or `1 day 06:30`."""
from __future__ import annotations

import re

from .names import Unit
from .values import NANOSECONDS, Bad

# Nanoseconds of each unit, by its names. Months and years differ in length, so they are none.
SECOND = 10**9
LENGTHS = {
    "us": 10**3, "microsecond": 10**3, "microseconds": 10**3, "ms": 10**6, "millisecond": 10**6, "milliseconds": 10**6,
    "s": SECOND, "sec": SECOND, "secs": SECOND, "second": SECOND, "seconds": SECOND,
    "m": 60 * SECOND, "min": 60 * SECOND, "mins": 60 * SECOND, "minute": 60 * SECOND, "minutes": 60 * SECOND,
    "h": 3600 * SECOND, "hour": 3600 * SECOND, "hours": 3600 * SECOND, "d": 86400 * SECOND, "day": 86400 * SECOND,
    "days": 86400 * SECOND, "w": 604800 * SECOND, "week": 604800 * SECOND, "weeks": 604800 * SECOND,
}  # fmt: skip
CALENDAR = ("mon", "mons", "month", "months", "y", "year", "years")
PART = re.compile(
    r"(?P<count>[0-9]+)(?:\.(?P<part>[0-9]{1,9}))?\s*(?P<unit>[a-z]+)|(?P<clock>[0-9]+:[0-9]{2}(?::[0-9]{2})?)"
)


def nanoseconds_of(text: str) -> int:
    """The length that a text says."""
    rest, total = text.strip().lower(), 0
    is_negative = rest.startswith("-")
    rest = rest.lstrip("+-").strip()
    if not rest:
        raise Bad("is no length of time, such as 1 hour")
    while rest:
        found = PART.match(rest)
        if not found:
            raise Bad("is no length of time, such as 1 hour")
        total += clock(found["clock"]) if found["clock"] else part(found["count"], found["part"] or "", found["unit"])
        rest = rest[found.end() :].strip()
    return -total if is_negative else total


def part(count: str, fraction: str, unit: str) -> int:
    """So many of a unit."""
    if unit in CALENDAR:
        raise Bad("has no fixed length: calendar_bucket(1, 'month', time) has buckets of months")
    if unit not in LENGTHS:
        raise Bad(f"has an unknown unit: {unit}")
    divisor: int = 10 ** len(fraction)
    return int(count + fraction) * LENGTHS[unit] // divisor


def clock(text: str) -> int:
    """Hours, minutes and perhaps seconds."""
    numbers = [int(number) for number in text.split(":")]
    hours, minutes, seconds = (*numbers, 0)[:3]
    return (hours * 3600 + minutes * 60 + seconds) * SECOND


def length_of(text: str, unit: Unit) -> int:
    """The length that a text says, in this unit, which must hold it."""
    ticks, rest = divmod(nanoseconds_of(text), NANOSECONDS[unit])
    if rest:
        raise Bad(f"isn't a whole number of {unit}")
    return ticks
