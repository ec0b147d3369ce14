"""How PostgreSQL writes names, numbers, texts and times, in statements and in its COPY format."""
from __future__ import annotations

import re
from datetime import datetime, timedelta

from .names import Unit
from .values import NANOSECONDS, Bad

# PostgreSQL has these columns in every table.
SYSTEM_COLUMNS = {"tableoid", "xmin", "cmin", "xmax", "cmax", "ctid"}
EPOCH = datetime(1970, 1, 1)
SECONDS_OF_DAY = 86400
# The calendar repeats itself after so many years.
CYCLE_YEARS, CYCLE_DAYS = 400, 146097
# The days from 1970 on of 4714-11-24 BC, the first one that PostgreSQL has, and of 294277-01-01, which it hasn't.
FIRST_DAY, LAST_DAY = -2440588, 106762940
LENGTHS = [("day", 86400 * 10**9), ("hour", 3600 * 10**9), ("minute", 60 * 10**9), ("second", 10**9),
           ("millisecond", 10**6), ("microsecond", 10**3)]  # fmt: skip
COPY_ESCAPES = {"\\": "\\\\", "\t": "\\t", "\n": "\\n", "\r": "\\r", "\b": "\\b", "\f": "\\f", "\v": "\\v"}
COPY_MEANINGS = {text[1]: char for char, text in COPY_ESCAPES.items()}
COPY_ESCAPE = re.compile(r"[\\\t\n\r\b\f\v]")
COPY_ESCAPED = re.compile(r"\\([0-7]{1,3}|x[0-9A-Fa-f]{1,2}|.)", re.DOTALL)


def quoted(name: str) -> str:
    """A name in double quotes: in tsctl no word is reserved, and in PostgreSQL many are."""
    return '"' + name.replace('"', '""') + '"'


def text_literal(text: str) -> str:
    """A text in quotes."""
    escaped = text.replace("'", "''")
    return f"'{escaped}'" if "\\" not in text else "E'" + escaped.replace("\\", "\\\\") + "'"


def column_name(name: str, names: list[str]) -> str:
    """The name of one of these columns, in quotes, with `_` at its end if PostgreSQL keeps it for itself."""
    if name in SYSTEM_COLUMNS:
        while name in names or name in SYSTEM_COLUMNS:
            name += "_"
    return quoted(name)


# ---- numbers


def scaled(number: int, power: int) -> str:
    """A number that was multiplied by ten so many times, as a decimal."""
    if power == 0:
        return str(number)
    digits = str(abs(number)).rjust(power + 1, "0")
    return "-" * (number < 0) + digits[:-power] + "." + digits[-power:]


def numeric_type(power: int) -> str:
    """The type of a column of 64 bits that is divided by ten so many times."""
    return f"NUMERIC({max(19, power)}, {power})" if power else "BIGINT"


# ---- times


def timestamp(number: int, unit: Unit) -> str:
    """A time as a date in UTC. One that PostgreSQL can't have ends as Bad."""
    seconds, rest = divmod(number * NANOSECONDS[unit], 10**9)
    days, second = divmod(seconds, SECONDS_OF_DAY)
    if not FIRST_DAY <= days < LAST_DAY:
        raise Bad("isn't between 4714-11-24 BC and 294276-12-31")
    cycles, day = divmod(days, CYCLE_DAYS)
    moment = EPOCH + timedelta(days=day, seconds=second)
    year = moment.year + cycles * CYCLE_YEARS
    shown = year if year > 0 else 1 - year
    part = f".{rest:09}"[:7].rstrip("0").rstrip(".")
    return f"{shown:04}-{moment:%m-%d %H:%M:%S}{part}+00{' BC' * (year <= 0)}"


def time_literal(number: int, unit: Unit) -> str:
    """A time in a statement. Beyond all that PostgreSQL can have it is infinity, which no row is."""
    try:
        return f"TIMESTAMPTZ '{timestamp(number, unit)}'"
    except Bad:
        return f"TIMESTAMPTZ '{'-' * (number < 0)}infinity'"


def interval(length: int, unit: Unit, has_days: bool = True) -> str:
    """A length of time. A day by the clock of a zone may have 23 hours, so days may be left out."""
    nanoseconds = length * NANOSECONDS[unit]
    for name, size in LENGTHS[0 if has_days else 1 :]:
        if nanoseconds % size == 0:
            count = nanoseconds // size
            return f"INTERVAL '{count} {name}{'s' * (count != 1)}'"
    raise ValueError(f"{length} {unit}")


# ---- COPY


def copy_text(text: str) -> str:
    """A text as COPY has it."""
    return COPY_ESCAPE.sub(lambda found: COPY_ESCAPES[found[0]], text)


def copied_text(cell: str) -> str | None:
    """The text of a cell of COPY; nothing for NULL."""
    if cell == "\\N":
        return None
    return COPY_ESCAPED.sub(meant, cell) if "\\" in cell else cell


def meant(found: re.Match[str]) -> str:
    """What an escape means."""
    escape = found[1]
    if escape[0] in "01234567":
        return chr(int(escape, 8) & 255)
    if escape[0] == "x" and len(escape) > 1:
        return chr(int(escape[1:], 16))
    return COPY_MEANINGS.get(escape, escape)
