"""Buckets of the calendar, as docs/SQL.md describes them: seconds since 1970-01-01 in UTC, without end.

Days are counted here by the rule for leap years alone, since the dates of Python end with the year 9999.
"""
DAY = 86_400
MONTHS = (31, 28, 31, 30, 31, 30, 31, 31, 30, 31, 30, 31)
DAYS_OF_400_YEARS = 146_097
# From 0000-03-01, where a cycle of 400 years begins whose leap days come last, to 1970-01-01.
MARCH_0000 = 719_468
# Monday, 2000-01-03, from which days and weeks are counted, in days since 1970-01-01.
MONDAY = 10_959


def first_day(month: int) -> int:
    """The first day of a month, both counted from January 1970."""
    year, of_year = divmod(month + 1970 * 12, 12)
    # A year that begins with March has its leap day at its end.
    year, of_year = (year - 1, of_year + 10) if of_year < 2 else (year, of_year - 2)
    days = sum(MONTHS[(it + 2) % 12] for it in range(of_year))
    return year * 365 + year // 4 - year // 100 + year // 400 + days - MARCH_0000


def month_of(day: int) -> int:
    """The month that holds a day."""
    month = day * 4800 // DAYS_OF_400_YEARS
    while first_day(month) > day:
        month -= 1
    while first_day(month + 1) <= day:
        month += 1
    return month


def calendar_bucket(count: int, unit: str, time: int) -> int:
    """The first second of the bucket that holds a time."""
    day = time // DAY
    if unit == "day":
        return ((day - MONDAY) // count * count + MONDAY) * DAY
    if unit == "week":
        return ((day - MONDAY) // (7 * count) * 7 * count + MONDAY) * DAY
    months = count * (12 if unit == "year" else 1)
    # Counted from January 2000.
    month = month_of(day) - 360
    return first_day(month // months * months + 360) * DAY
