"""Adds up the groups of an aggregate: counts, sums, least and greatest values, and averages as exact fractions."""
from __future__ import annotations

from collections.abc import Callable, Iterable
from dataclasses import dataclass, field
from fractions import Fraction

from .aggregates import Aggregate, Value

Number = int | Fraction
# What a row of the aggregate has, by the name of its column.
Cells = dict[str, "Number | None"]


def number_of(text: str) -> Number | None:
    """The value of a cell of an answer."""
    if text == "null":
        return None
    return Fraction(text) if "/" in text else int(text)


def text_of(number: Number | None) -> str:
    """A value as an answer has it: an average is a fraction in lowest terms."""
    if number is None:
        return "null"
    return f"{number.numerator}/{number.denominator}" if isinstance(number, Fraction) else str(number)


# ---- one column


@dataclass(frozen=True)
class Total:
    """A column of the roll: its name, its function over a column, and the columns of the aggregate that it is made of.

    An average has a sum or an average, `of`, and a count, `by`; any other function has one column, `of`.
    """

    name: str
    function: str
    column: str | None
    of: str
    by: str | None = None
    of_average: bool = False
    is_time: bool = False

    def add(self, old: Number | None, cells: Cells) -> Number | None:
        """The total with one more group. That of an average is its sum."""
        new = cells[self.of]
        if new is not None and self.of_average:
            new = int(new * (cells[self.by or ""] or 0))
        if old is None or new is None:
            return new if old is None else old
        return min(old, new) if self.function == "min" else max(old, new) if self.function == "max" else old + new


def count_of(column: str, aggregate: Aggregate) -> str | None:
    """The aggregate's column that counts the values of a column, if there is one."""
    for value in aggregate.values:
        is_all = value.function == "count(*)" and column in aggregate.never_null
        if is_all or value.function == "count" and value.column == column:
            return value.name
    return None


def average_of(value: Value, aggregate: Aggregate) -> Total | None:
    """The total of an average, which needs a count beside it."""
    column = value.column or ""
    by = count_of(column, aggregate)
    sums = [it.name for it in aggregate.values if it.function == "sum" and it.column == column]
    if by is None:
        return None
    name = value.name if value.function == "avg" else f"avg_{column}"
    return Total(name, "avg", column, (sums or [value.name])[0], by, of_average=not sums)


def totals_of(aggregate: Aggregate) -> tuple[list[Total], list[str]]:
    """The columns of a roll: those of the aggregate, and behind them an average for each sum with a count that has
    none. And the averages that can't be had."""
    totals: list[Total] = []
    missing: list[str] = []
    for value in aggregate.values:
        if value.function != "avg":
            totals.append(Total(value.name, value.function, value.column, value.name, is_time=value.is_time))
        elif total := average_of(value, aggregate):
            totals.append(total)
        else:
            missing.append(value.name)
    averaged = {total.column for total in totals if total.function == "avg"}
    taken = set(aggregate.names())
    for value in aggregate.values:
        if value.function == "sum" and value.column not in averaged and f"avg_{value.column}" not in taken:
            total = average_of(value, aggregate)
            if total:
                averaged.add(value.column)
                totals.append(total)
    return totals, missing


# ---- all rows


@dataclass
class Group:
    """The totals of a period and a list of keys, and the counts by which averages are divided."""

    sums: list[Number | None]
    counts: list[int]

    def values(self, totals: list[Total]) -> list[Number | None]:
        """The values of the columns."""
        return [Fraction(total_sum) / count if total.by and total_sum is not None and count else
                None if total.by else total_sum
                for total, total_sum, count in zip(totals, self.sums, self.counts)]  # fmt: skip


@dataclass
class Rolled:
    """Rows, each of a period, by its start, and a list of keys; and the buckets that lie in two periods."""

    totals: list[Total]
    groups: dict[tuple[int, tuple[str, ...]], Group] = field(default_factory=dict)
    spans: dict[int, int] = field(default_factory=dict)
    across: set[int] = field(default_factory=set)

    def rows(self) -> list[list[str]]:
        """The rows as an answer has them, by period and keys; NULL is greater than every number."""

        def order(key: tuple[int, tuple[str, ...]]) -> tuple[object, ...]:
            return key[0], [(text == "null", 0 if text == "null" else int(text)) for text in key[1]]

        return [[str(start), *keys, *map(text_of, self.groups[start, keys].values(self.totals))]
                for start, keys in sorted(self.groups, key=order)]  # fmt: skip


def roll_up(aggregate: Aggregate, rows: Iterable[list[str]], span_of: Callable[[int], tuple[int, int]]) -> Rolled:
    """Adds up rows of an aggregate, which come by time. A bucket counts in the period that holds its start."""
    totals, _ = totals_of(aggregate)
    rolled = Rolled(totals)
    names, keys_end = aggregate.names(), 1 + len(aggregate.keys)
    start, end, last = 0, 0, None
    for row in rows:
        time = int(row[0])
        if time != last:
            last = time
            if not start <= time < end:
                start, end = span_of(time)
                rolled.spans[start] = end
            if time + aggregate.width > end:
                rolled.across.add(time)
        cells = dict(zip(names[keys_end:], map(number_of, row[keys_end:])))
        key = start, tuple(row[1:keys_end])
        group = rolled.groups.get(key)
        if group is None:
            group = rolled.groups[key] = Group([None] * len(totals), [0] * len(totals))
        for place, total in enumerate(totals):
            group.sums[place] = total.add(group.sums[place], cells)
            if total.by:
                group.counts[place] += int(cells[total.by] or 0)
    return rolled
