"""The type that each column of a journal has in PostgreSQL, and how its numbers are written there."""
from __future__ import annotations

from collections.abc import Callable
from dataclasses import dataclass, field

from .history import Relation
from .journal import Test, View
from .messages import Trouble
from .names import Names, Unit
from .postgres import column_name, copy_text, numeric_type, scaled, text_literal, time_literal, timestamp
from .values import Bad


@dataclass(frozen=True)
class Kind:
    """What the numbers of a column are: times in a unit, texts of a column of the dictionary, or decimals."""

    unit: Unit | None = None
    scale: int = 0
    texts: str | None = None

    def sql_type(self) -> str:
        """The type of the column."""
        if self.unit:
            return "TIMESTAMPTZ"
        return "TEXT" if self.texts else numeric_type(self.scale)


@dataclass
class Kinds:
    """The kinds of the columns of all tables, by what a folder remembers and what the options say.

    `numbers` are columns of texts that stay numbers, since an aggregate compares or adds them up.
    """

    names: Names
    unit: Unit | None
    scales: dict[str, int]
    numbers: set[str] = field(default_factory=set)
    # How many numbers of each column of texts have no text.
    without_text: dict[str, int] = field(default_factory=dict)

    def of_table(self, table: Relation) -> list[Kind]:
        """Those of a table's columns, by their numbers: the time is the first."""
        return [
            self.kind(name, place == 0 and table.hyper is not None) for place, (name, _) in enumerate(numbered(table))
        ]

    def kind(self, name: str, is_time: bool) -> Kind:
        """That of a column."""
        if is_time and self.unit:
            return Kind(unit=self.unit)
        if self.names.has_texts(name) and name not in self.numbers and not is_time:
            return Kind(texts=name)
        return Kind(scale=self.scales.get(name, self.names.scale_of(name)))

    def check(self, view: View, table: Relation) -> None:
        """Lets columns of texts that an aggregate needs as numbers be numbers. Times that are added up can't be
        dates."""
        names = [name for name, _ in numbered(table)]
        kinds = self.of_table(table)
        for function in view.functions:
            if function.name in ("sum", "avg") and kinds[function.column].unit:
                raise Trouble(f"aggregate {view.name} has a {function.name} of times: --bigint leaves them numbers")
            if not function.name.startswith("count") and kinds[function.column].texts:
                self.numbers.add(names[function.column])
        for test in view.tests:
            column = kinds[test.column].texts
            is_equal = test.comparison in ("=", "<>") and column and self.names.text_of(column, test.number) is not None
            if column and not is_equal and "NULL" not in test.comparison:
                self.numbers.add(column)

    def text_of(self, column: str, number: int) -> str:
        """The text of a number. One that has none is its digits, unless they are another number's text."""
        text = self.names.text_of(column, number)
        if text is not None:
            return text
        if self.names.number_of(column, str(number)) is not None:
            raise Trouble(f"{column} {number} has no text, and `{number}` is the text of another number")
        self.without_text[column] = self.without_text.get(column, 0) + 1
        return str(number)

    def literal(self, kind: Kind, number: int) -> str:
        """A number in a statement."""
        if kind.unit:
            return time_literal(number, kind.unit)
        return text_literal(self.text_of(kind.texts, number)) if kind.texts else scaled(number, kind.scale)

    def cell(self, kind: Kind) -> Callable[[int], str]:
        """The function from a number to its cell in COPY."""
        if kind.unit:
            return lambda number: time_cell(number, kind.unit or "s")
        if kind.texts:
            return lambda number: copy_text(self.text_of(kind.texts or "", number))
        if kind.scale:
            return lambda number: scaled(number, kind.scale)
        return str

    def condition(self, test: Test, table: Relation) -> str:
        """A test of a WHERE."""
        column = column_names(table)[test.column]
        if "NULL" in test.comparison:
            return f"{column} {test.comparison}"
        return f"{column} {test.comparison} {self.literal(self.of_table(table)[test.column], test.number)}"

    def of_view(self, view: View, table: Relation) -> list[Kind]:
        """Those of an aggregate's columns."""
        kinds = self.of_table(table)
        columns = [Kind() if it.name.startswith("count") else kinds[it.column] for it in view.functions]
        return [kinds[0], *(kinds[key] for key in view.keys), *columns]


def time_cell(number: int, unit: Unit) -> str:
    """A time in COPY."""
    try:
        return timestamp(number, unit)
    except Bad as bad:
        raise Trouble(f"time {number} {bad}, which PostgreSQL's dates have: --bigint leaves times numbers") from None


def numbered(table: Relation) -> list[tuple[str, bool]]:
    """The columns of a table by their numbers; of one that is no hypertable as they are declared."""
    return table.numbered() if table.hyper else table.columns


def column_names(table: Relation) -> list[str]:
    """The columns of a table by their numbers, as they are written."""
    names = [name for name, _ in table.columns]
    return [column_name(name, names) for name, _ in numbered(table)]
