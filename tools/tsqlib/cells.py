"""The texts of numbers: averages as decimals, times as dates."""
from __future__ import annotations

from datetime import datetime, timedelta
from fractions import Fraction

UNITS = {"s": 1, "ms": 10**3, "us": 10**6}
EPOCH = datetime(1970, 1, 1)


def divided(text: str, power: int) -> str:
    """A number or a fraction divided by ten so many times, as a fraction in lowest terms."""
    value = Fraction(text) / 10**power
    return f"{value.numerator}/{value.denominator}"


def shifted(text: str, power: int) -> str:
    """A whole number divided by ten so many times, with so many digits after the point."""
    return decimal(divided(text, power), power)


def digits_after_point(divisor: int) -> int | None:
    """How many digits a fraction in lowest terms has after the point, and nothing if they don't end."""
    counts = []
    for prime in (2, 5):
        count = 0
        while divisor % prime == 0:
            divisor, count = divisor // prime, count + 1
        counts.append(count)
    return max(counts) if divisor == 1 else None


def decimal(fraction: str, places: int) -> str:
    """The fraction `n/d` as a decimal: exact if it ends, else rounded to so many places, halves away from 0."""
    number, divisor = map(int, fraction.split("/"))
    places = max(places, digits_after_point(divisor) or 0)
    scaled, rest = divmod(abs(number) * 10**places, divisor)
    scaled += 2 * rest >= divisor
    digits = str(scaled).rjust(places + 1, "0")
    sign = "-" if number < 0 and scaled else ""
    return sign + digits if places == 0 else f"{sign}{digits[:-places]}.{digits[-places:]}"


def date(number: int, unit: str, is_iso: bool = False) -> str:
    """A time as a date in UTC, with as many digits of seconds as the unit has; the number itself beyond the years
    1 to 9999. For other programs it has a `T` between and a `Z` at the end."""
    seconds, rest = divmod(number, UNITS[unit])
    try:
        moment = EPOCH + timedelta(seconds=seconds)
    except OverflowError:
        return str(number)
    text = moment.isoformat("T" if is_iso else " ")
    if unit != "s":
        text += f".{rest:0{len(str(UNITS[unit])) - 1}}"
    return text + "Z" * is_iso


def time_text(number: int, unit: str | None, is_iso: bool = False) -> str:
    """A time as a date, or as the number that it is if no unit is asked for."""
    return str(number) if unit is None else date(number, unit, is_iso)
