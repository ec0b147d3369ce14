"""The rows that a picture draws: those of an aggregate, of a roll of it by the calendar, or of a query."""
from __future__ import annotations

from typing import NamedTuple

from .aggregates import Aggregate
from .asking import Shown
from .gaps import Edges, states_of
from .messages import Trouble
from .names import Names
from .periods import Periods
from .picture import Column, Row
from .rolling import Total, number_of, roll_up, totals_of

NULL = "null"
MOST_NOTES = 3


class Drawable(NamedTuple):
    """A column that may be drawn: its name, its kind, and the table's column whose scale it has, if it has one.

    Columns of one kind have one unit. Those whose values are times aren't drawn.
    """

    name: str
    kind: str = ""
    scaled_as: str | None = None
    is_time: bool = False


class Bucket(NamedTuple):
    """A row: the start and the end of its bucket, and its cells as tsctl prints them."""

    start: int
    end: int
    keys: list[str]
    cells: list[str]


class Series(NamedTuple):
    """Rows with the names of their bucket, keys and columns, and what must be said of them."""

    title: str
    axis: str
    keys: list[str]
    columns: list[Drawable]
    buckets: list[Bucket]
    notes: list[str] = []


def drawable(name: str, function: str, column: str | None, is_time: bool) -> Drawable:
    """A function's column."""
    if function.startswith("count"):
        return Drawable(name, "count")
    return Drawable(name, f"sum of {column}" if function == "sum" else column or "", column, is_time)


def of_aggregate(shown: Shown, aggregate: Aggregate) -> Series:
    """The rows of an aggregate."""
    first = 1 + len(aggregate.keys)
    columns = [drawable(it.name, it.function, it.column, it.is_time) for it in aggregate.values]
    buckets = [Bucket(int(row[0]), int(row[0]) + aggregate.width, row[1:first], row[first:]) for row in shown.rows]
    return Series(aggregate.name, aggregate.bucket, list(aggregate.keys), columns, buckets)


def of_roll(shown: Shown, aggregate: Aggregate, periods: Periods, edges: Edges) -> Series:
    """The rows of an aggregate, added up by periods, with notes of those that aren't whole."""

    def column(total: Total) -> Drawable:
        return drawable(total.name, total.function, total.column, total.is_time)

    rolled = roll_up(aggregate, shown.rows, periods.span)
    first = 1 + len(aggregate.keys)
    buckets = [Bucket(int(row[0]), rolled.spans[int(row[0])], row[1:first], row[first:]) for row in rolled.rows()]
    states = states_of(shown, rolled, edges, aggregate.width, periods.clock)
    cut = [f"cut {periods.name(start)}: {state.cut}" for start, state in states.items() if state.cut]
    notes = cut[:MOST_NOTES] + [f"and {len(cut) - MOST_NOTES} more that are cut"] * (len(cut) > MOST_NOTES)
    notes += [f"{name} is left out: {aggregate.name} has no count of its values" for name in totals_of(aggregate)[1]]
    title = f"{aggregate.name} by {periods.kind}"
    return Series(title, periods.kind, list(aggregate.keys), list(map(column, rolled.totals)), buckets, notes)


def of_query(shown: Shown) -> Series:
    """The rows of a query by buckets of one width."""
    output, first = shown.output, 1 + shown.output.keys
    width = output.width or 1
    columns = [
        Drawable(name, scaled_as=output.units[place] if place < len(output.units) else None,
                 is_time=place in output.times)
        for place, name in enumerate(output.names) if place >= first
    ]  # fmt: skip
    buckets = [Bucket(int(row[0]), int(row[0]) + width, row[1:first], row[first:]) for row in shown.rows]
    return Series(shown.title, output.names[0], output.names[1:first], columns, buckets)


# ---- what of them is drawn


def chosen(series: Series, wanted: str | None) -> list[int]:
    """The places of the columns that are drawn: those that are named, or all that aren't times."""
    names = [column.name for column in series.columns]
    if not wanted:
        return [place for place, column in enumerate(series.columns) if not column.is_time]
    places = []
    for name in (name.strip().lower() for name in wanted.split(",")):
        if name not in names:
            raise Trouble(f"no column `{name}` to draw; there are {', '.join(names)}")
        if series.columns[names.index(name)].is_time:
            raise Trouble(f"`{name}` is a time, which isn't drawn")
        places.append(names.index(name))
    return list(dict.fromkeys(places))


def powers_of(columns: list[Drawable], scales: dict[str, int], names: Names) -> list[int]:
    """The powers of ten by which columns are divided: as they are given, or as the folder remembers them."""
    scales = {name.lower(): power for name, power in scales.items()}
    for name, power in scales.items():
        if name not in [column.name for column in columns]:
            raise Trouble(f"--scale {name}={power}: no such column is drawn")
    return [scales.get(column.name, names.scale_of(column.scaled_as) if column.scaled_as else 0) for column in columns]


def key_wanted(series: Series, name: str, value: str, names: Names) -> tuple[int, str]:
    """The place of a key and its cell, of a value that is a number, `null` or a text of the folder."""
    if name.lower() not in series.keys:
        there = f"there are {', '.join(series.keys)}" if series.keys else "there is none"
        raise Trouble(f"no key `{name}`; {there}")
    number = names.number_of(name.lower(), value)
    if number is None:
        try:
            number = None if value.lower() == NULL else int(value)
        except ValueError:
            wanted = "a whole number, null, or a text that the folder knows"
            raise Trouble(f"--key {name}={value}: wanted is {wanted}") from None
    return series.keys.index(name.lower()), NULL if number is None else str(number)


def with_keys(series: Series, pairs: list[tuple[str, str]], names: Names) -> list[Bucket]:
    """The rows whose keys have one of the values that are asked for."""
    wanted: dict[int, set[str]] = {}
    for name, value in pairs:
        place, cell = key_wanted(series, name, value, names)
        wanted.setdefault(place, set()).add(cell)
    found = [it for it in series.buckets if all(it.keys[place] in cells for place, cells in wanted.items())]
    if series.buckets and not found:
        raise Trouble("no row has " + ", ".join(f"{name} {value}" for name, value in pairs))
    return found


def key_text(name: str, cell: str, names: Names) -> str:
    """A key as it is written: its text, if it has one."""
    text = None if cell == NULL else names.text_of(name, int(cell))
    return cell if text is None else text


def key_order(bucket: Bucket) -> list[tuple[bool, int]]:
    """Orders lists of keys; NULL is greater than every number."""
    return [(cell == NULL, 0 if cell == NULL else int(cell)) for cell in bucket.keys]


def rows_of(series: Series, buckets: list[Bucket], places: list[int], powers: list[int], names: Names) -> list[Row]:
    """The rows as they are drawn, those of the first list of keys first."""

    def value(cell: str, power: int) -> float | None:
        number = number_of(cell)
        return None if number is None else float(number / 10**power if power else number)

    rows = []
    for bucket in sorted(buckets, key=key_order):
        keys = tuple(key_text(name, cell, names) for name, cell in zip(series.keys, bucket.keys))
        values = tuple(value(bucket.cells[place], power) for place, power in zip(places, powers))
        rows.append(Row(bucket.start, bucket.end, keys, values))
    return rows


def columns_of(series: Series, places: list[int]) -> list[Column]:
    """The columns as they are drawn."""
    return [Column(series.columns[place].name, series.columns[place].kind) for place in places]
