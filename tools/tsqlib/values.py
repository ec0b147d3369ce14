"""Cells of a file as whole numbers: decimals by the scale of their column, dates by the unit of times."""
from __future__ import annotations

import re
from collections.abc import Callable
from dataclasses import dataclass
from datetime import datetime, timedelta, timezone, tzinfo

from .journal import LEAST_TIME, MOST_TIME
from .names import FILE, SCALE_STAYS, Names, Unit

LEAST, MOST = -(2**63), 2**63 - 1
EPOCH = datetime(1970, 1, 1, tzinfo=timezone.utc)
NANOSECONDS = {"s": 10**9, "ms": 10**6, "us": 10**3, "ns": 1}
NUMBER = re.compile(r"([+-]?)([0-9]{0,99})(?:\.([0-9]{0,99}))?(?:[eE]([+-]?[0-9]{1,2}))?")
# `fromisoformat` takes numbers for dates too, by the version of Python, and drops digits behind the sixth.
CLOCK = r"[0-9]{2}:[0-9]{2}(?::[0-9]{2}(?:\.([0-9]{1,9}))?)?"
ZONE = r"[Zz]| ?UTC|[+-][0-9]{2}(?::?[0-9]{2})?"
DATE = re.compile(rf"([0-9]{{4}}-[0-9]{{2}}-[0-9]{{2}})(?:[Tt ]({CLOCK})({ZONE})?)?")
# The cells that a column remembers with their numbers, since most columns have few different ones.
MOST_REMEMBERED = 16384


class Bad(Exception):
    """A cell that can't be put in, and why."""


@dataclass
class Times:
    """How the cells of the time column are read, and how many dates had two meanings.

    `unit` is that of the table's times, if they are dates. `epoch` is the unit of cells that are numbers since 1970.
    """

    unit: Unit | None = None
    zone: tzinfo | None = None
    epoch: str | None = None
    fold: int = 0
    doubled: int = 0
    kept: int = 0

    def keep(self) -> None:
        """Keeps what was counted for a row that is taken."""
        self.kept = self.doubled

    def undo(self) -> None:
        """Forgets what was counted for a row that isn't taken."""
        self.doubled = self.kept

    def of(self, text: str) -> int:
        """The time that a cell is."""
        if self.unit is None:
            return number_of(text, 0, "")
        if self.epoch:
            return whole(number_of(text, 0, "") * NANOSECONDS[self.epoch], self.unit)
        return time_of(text, self.unit, self.in_zone)

    def in_zone(self, moment: datetime) -> datetime:
        """A date without a zone, in the zone of the file. The hour that clocks leave out is no time. Of the one that
        they show twice the first or the second is meant."""
        if not self.zone:
            return moment.replace(tzinfo=timezone.utc)
        local = moment.replace(tzinfo=self.zone, fold=self.fold)
        if local.astimezone(timezone.utc).astimezone(self.zone).replace(tzinfo=None, fold=0) != moment:
            raise Bad(f"is no time in {self.zone}, where clocks go forward then")
        self.doubled += local.utcoffset() != local.replace(fold=1 - self.fold).utcoffset()
        return local


class Texts:
    """The numbers of a column's texts: those that are remembered, and the next free ones for new texts."""

    def __init__(self, column: str, names: Names) -> None:
        self.column = column
        self.numbers = {text: number for number, text in names.texts_of(column).items()}
        self.old = len(self.numbers)
        self.kept = self.old
        self.next = max(names.texts_of(column), default=0) + 1

    def keep(self) -> None:
        """Keeps the new texts of a row that is taken."""
        self.kept = len(self.numbers)

    def undo(self) -> None:
        """Forgets the new texts of a row that isn't taken."""
        while len(self.numbers) > self.kept:
            self.numbers.popitem()
            self.next -= 1

    def number_of(self, text: str) -> int:
        """The number of a text."""
        number = self.numbers.get(text)
        if number is None:
            number = self.numbers[text] = self.next
            self.next += 1
        return number

    def new(self) -> dict[str, int]:
        """The new texts of rows that are taken, with their numbers."""
        return dict(list(self.numbers.items())[self.old :])


@dataclass(frozen=True)
class Column:
    """A column that is loaded, and how its cells become numbers. `place` is that of its cell in a row of the file, and
    `is_fixed` says that the folder remembers the scale, so that no other one may be given."""

    name: str
    place: int
    scale: int = 0
    times: Times | None = None
    texts: Texts | None = None
    is_not_null: bool = False
    is_fixed: bool = False


def number_of(text: str, scale: int, name: str, is_fixed: bool = False) -> int:
    """The whole number that a cell is, times ten to the power of `scale`."""
    found = NUMBER.fullmatch(text)
    if not found or not (found[2] or found[3]):
        raise Bad("is no number" + " (--times reads dates)" * bool(DATE.fullmatch(text)))
    part = (found[3] or "").rstrip("0")
    digits, power = int(found[2] + part or "0"), scale + int(found[4] or 0) - len(part)
    number, rest = divmod(digits, 10 ** max(0, -power))
    if rest:
        fixed, wider = f"{FILE} has scale {scale}: {SCALE_STAYS}", f"--scale {name}={scale - power} keeps them"
        raise Bad("has more digits than are kept" + f": {fixed if is_fixed else wider}" * bool(name))
    value: int = (-number if found[1] == "-" else number) * 10 ** max(0, power)
    return value


def whole(nanoseconds: int, unit: Unit) -> int:
    """A time in its unit, which must hold it."""
    ticks, rest = divmod(nanoseconds, NANOSECONDS[unit])
    if rest:
        raise Bad(f"isn't a whole number of {unit}")
    return ticks


def as_utc(moment: datetime) -> datetime:
    """A date without a zone is in UTC."""
    return moment.replace(tzinfo=timezone.utc)


def time_of(text: str, unit: Unit, in_zone: Callable[[datetime], datetime] = as_utc) -> int:
    """The time that a date is. `in_zone` gives a zone to one that has none."""
    found = DATE.fullmatch(text)
    if not found:
        raise Bad("is no date (--time names the time column, --epoch reads numbers)")
    day, clock, fraction, zone = found.groups()
    try:
        moment = datetime.fromisoformat(f"{day} {(clock or '00:00').partition('.')[0]}")
        if zone:
            offset = (
                "+00:00" if zone.strip().upper() in ("Z", "UTC") else (zone[:3] + ":" + (zone[3:].strip(":") or "00"))
            )
            moment = datetime.fromisoformat(f"{moment.isoformat()}{offset}")
    except ValueError:
        raise Bad("is no date (--time names the time column)") from None
    seconds = ((moment if zone else in_zone(moment)) - EPOCH) // timedelta(seconds=1)
    return whole(seconds * 10**9 + int((fraction or "0").ljust(9, "0")), unit)


# ---- from a cell to what stands for it in a statement


def is_plain(cell: str) -> bool:
    """Whether a cell is a number of 64 bits, and a time, as it is written."""
    return cell.isdigit() and cell.isascii() and len(cell) < 19 and (cell[0] != "0" or cell == "0")


def value_of(column: Column, text: str) -> int:
    """The value of a cell that isn't NULL."""
    if column.texts:
        return column.texts.number_of(text)
    if column.times:
        value = column.times.of(text)
    else:
        value = number_of(text, column.scale, column.name, column.is_fixed)
    least, most = (LEAST_TIME, MOST_TIME) if column.times else (LEAST, MOST)
    if not least <= value <= most:
        raise Bad("is out of the range of times" if column.times else "isn't a number of 64 bits")
    return value


def converter(column: Column, null: str, nulls: frozenset[str]) -> Callable[[str], str]:
    """The function from a cell of a column to its number as text, or to that of NULL. A cell is NULL if it is empty, or
    one of `nulls`, which are in lower case."""

    def read(cell: str) -> str:
        text = cell.strip()
        if text and text.lower() not in nulls:
            return str(value_of(column, text))
        if column.times:
            raise Bad("is no time")
        if column.is_not_null:
            raise Bad("is NULL in a NOT NULL column")
        return null

    if column.times:
        return dates(column, read)
    if column.texts:
        return read
    is_number = column.scale == 0
    known: dict[str, str] = {}

    def remembered(cell: str) -> str:
        if is_number and is_plain(cell):
            return cell
        found = known.get(cell)
        if found is None:
            if len(known) == MOST_REMEMBERED:
                known.clear()
            found = known[cell] = read(cell)
        return found

    return remembered


def dates(column: Column, read: Callable[[str], str]) -> Callable[[str], str]:
    """The function from a cell of the time column to its number as text. Dates of one minute are read once, if they
    are in UTC and times are seconds."""
    times = column.times
    if times is None or times.unit is None:
        return lambda cell: cell if is_plain(cell) else read(cell)
    if times.unit != "s" or times.zone or times.epoch:
        return read
    minutes: dict[str, int] = {}

    def in_minute(cell: str) -> str:
        seconds = cell[17:19]
        if len(cell) not in (19, 20) or not (seconds.isdigit() and seconds.isascii() and seconds < "60"):
            return read(cell)
        front, rest = cell[:17], cell[19:]
        found = minutes.get(front + rest)
        if found is None:
            if len(minutes) == MOST_REMEMBERED:
                minutes.clear()
            found = minutes[front + rest] = int(read(f"{front}00{rest}"))
        return str(found + int(seconds))

    return in_minute
