"""What the columns of a dump become: names of this SQL, the unit of times, scales that lose nothing, and texts."""
from __future__ import annotations

import re
from collections.abc import Callable
from dataclasses import dataclass, field
from fractions import Fraction

from .messages import Trouble
from .names import MOST_SCALE, Names, Unit
from .pg_dump import Table
from .values import DATE, LEAST, MOST, NUMBER, Bad, Texts, Times, number_of

MOST_COLUMNS = 16
MOST_TABLES = 64
TIME_TYPES = ("timestamp", "date")
NUMBER_TYPES = ("numeric", "decimal", "double precision", "real")
WHOLE_TYPES = ("smallint", "integer", "bigint")
DIGITS_OF_UNIT: dict[int, Unit] = {0: "s", 3: "ms", 6: "us"}


@dataclass
class Imported:
    """A column: its name here, and what its cells are. `digits` is how many stand after the point at most."""

    name: str
    kind: str
    is_not_null: bool
    has_null: bool = False
    digits: int = 0
    rounded: int = 0


@dataclass
class Source:
    """A table of the dump that is taken, with its name here and its columns."""

    name: str
    table: Table
    columns: list[Imported]
    time: int = 0
    rows: int = 0


@dataclass
class Options:
    """What the command line says of all tables."""

    nulls: frozenset[str]
    times: list[str]
    round: dict[str, int]
    left_out: list[str] = field(default_factory=list)


def kind_of(sql_type: str) -> str:
    """What a type's cells are."""
    text = sql_type.lower()
    if text.endswith("[]"):
        return "text"
    for kind, types in (
        ("time", TIME_TYPES),
        ("number", NUMBER_TYPES),
        ("whole", WHOLE_TYPES),
        ("truth", ("boolean",)),
    ):
        if text.startswith(types):
            return kind
    return "text"


def name_here(name: str, taken: set[str]) -> str:
    """A name of this SQL, which isn't taken yet."""
    base = re.sub(r"[^a-z0-9_]", "_", name.lower())
    base = (base if re.match(r"[a-z_]", base) else f"_{base}")[:60]
    new, count = base, 2
    while new in taken:
        new, count = f"{base}_{count}", count + 1
    taken.add(new)
    return new


def time_place(table: Table, options: Options) -> int | None:
    """The column that is the time: the one that is named, else the first date that is NOT NULL, else the first date."""
    named = [place for place, column in enumerate(table.columns) if column.name.lower() in options.times]
    dates = [place for place, column in enumerate(table.columns) if kind_of(column.type) == "time"]
    firm = [place for place in dates if table.columns[place].is_not_null]
    return next(iter([*named, *firm, *dates]), None)


def source_of(table: Table, taken: set[str], options: Options) -> Source | None:
    """A table of the dump as it is taken; nothing, with a word, if it can't be."""
    time = time_place(table, options)
    if time is None:
        why = "it has no date; --time NAME names a column of whole numbers"
    elif len(table.columns) > MOST_COLUMNS:
        why = f"it has {len(table.columns)} columns, and a table here has {MOST_COLUMNS}"
    else:
        names: set[str] = set()
        columns = [Imported(name_here(it.name, names), kind_of(it.type), it.is_not_null) for it in table.columns]
        return Source(name_here(table.name.rpartition(".")[2], taken), table, columns, time)
    options.left_out.append(f"table {table.name}: {why}")
    return None


def part_names(sources: list[Source]) -> None:
    """Lets columns of texts and of numbers have different names, since a folder's texts are by the column's name."""
    numbers = {it.name for source in sources for it in source.columns if it.kind != "text"}
    for source in sources:
        for column in source.columns:
            if column.kind == "text" and column.name in numbers:
                taken = {it.name for it in source.columns} | numbers
                column.name = name_here(f"{column.name[:50]}_text", taken)


# ---- a first look at all cells


def digits_in(text: str) -> int:
    """How many digits of a number stand after the point, zeros at the end apart."""
    found = NUMBER.fullmatch(text)
    if not found or not (found[2] or found[3]):
        raise Bad("is no number (--null lets it be NULL)")
    whole, part = found[2], (found[3] or "").rstrip("0")
    power = int(found[4] or 0) - len(part)
    digits = (whole + part).rstrip("0")
    return max(0, -(power + len(whole + part) - len(digits))) if digits else 0


def digits_of_time(text: str) -> int:
    """How many digits the seconds of a date have after the point: 0, 3 or 6."""
    found = DATE.fullmatch(text)
    if not found:
        raise Bad("is no date here (--null lets it be NULL)")
    return -(-len((found[3] or "").rstrip("0")) // 3) * 3


LOOKS: dict[str, Callable[[str], int]] = {"time": digits_of_time, "number": digits_in}


def look(source: Source, place: int, text: str | None) -> None:
    """Notes what a cell needs."""
    column = source.columns[place]
    if text is None:
        column.has_null = True
    elif column.kind in LOOKS:
        column.digits = max(column.digits, LOOKS[column.kind](text))


# ---- numbers of cells


def unit_of(sources: list[Source], given: Unit | None) -> Unit:
    """The unit that loses nothing of any date, or the one that is given."""
    digits = max((it.digits for source in sources for it in source.columns if it.kind == "time"), default=0)
    return given or DIGITS_OF_UNIT[min(6, digits)]


def scales_of(sources: list[Source], options: Options) -> dict[str, int]:
    """The power of ten of each column with digits after the point. Columns of one name have one."""
    scales: dict[str, int] = {}
    for source in sources:
        for column in source.columns:
            if column.kind == "number" and column.digits:
                scales[column.name] = max(scales.get(column.name, 0), column.digits)
    scales |= {name: min(scales[name], digits) for name, digits in options.round.items() if name in scales}
    for name, scale in scales.items():
        if scale > MOST_SCALE:
            raise Trouble(f"{name} has {scale} digits after the point: --round {name}=6 rounds them")
    return {name: scale for name, scale in scales.items() if scale}


def reader(column: Imported, scale: int, times: Times, texts: dict[str, Texts], names: Names) -> Callable[[str], int]:
    """The function from a cell that isn't NULL to its number."""
    if column.kind == "time":
        return times.of
    if column.kind == "truth":
        return lambda text: int(text == "t")
    if column.kind == "text":
        return texts.setdefault(column.name, Texts(column.name, names)).number_of
    if column.kind == "number" and column.digits > scale:
        return lambda text: rounded(column, text, scale)
    return lambda text: number_of(text, scale, "")


def rounded(column: Imported, text: str, scale: int) -> int:
    """A number to so many digits, halves away from 0."""
    value = Fraction(text) * 10**scale
    number, rest = divmod(abs(value.numerator), value.denominator)
    column.rounded += rest > 0
    nearest = int(number + (2 * rest >= value.denominator))
    return -nearest if value < 0 else nearest


def in_range(column: Imported, number: int) -> str:
    """A number of 64 bits as text."""
    if not LEAST <= number <= MOST:
        hint = f" with {column.digits} digits after the point: --round {column.name}=N keeps fewer" * (
            column.digits > 0
        )
        raise Bad(f"doesn't fit into 64 bits{hint}")
    return str(number)
