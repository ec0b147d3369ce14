"""Aggregates as a journal defines them: what their columns mean, and from where on none of their rows was dropped."""
from __future__ import annotations

from dataclasses import dataclass
from pathlib import Path

from .dropped import JournalDrops
from .history import History, Relation
from .image import roster_of
from .journal import HYPER, MODE, NAME, TABLE, VIEW, Damaged, Function, View, Wrong, event, is_base, payloads
from .messages import Trouble
from .options import JOURNAL
from .programs import journal_in
from .schema import Output


@dataclass(frozen=True)
class Value:
    """A function's column: its name, the function, and the column of the table that it goes over, if it has one."""

    name: str
    function: str
    column: str | None = None
    is_time: bool = False


@dataclass(frozen=True)
class Aggregate:
    """An aggregate over a table. `columns` are those of the table in declared order, and `never_null` those of them
    that are NOT NULL. `kept_from` is the start of the first bucket after all rows that `drop_chunks` took away."""

    name: str
    bucket: str
    width: int
    offset: int
    keys: tuple[str, ...]
    values: tuple[Value, ...]
    is_real_time: bool
    table: str
    time: str
    columns: tuple[str, ...]
    never_null: frozenset[str]
    kept_from: int | None = None

    def output(self) -> Output:
        """The columns of an answer that shows all of it."""
        first = 1 + len(self.keys)
        times = {0} | {first + place for place, value in enumerate(self.values) if value.is_time}
        times |= {place for place, key in enumerate(self.keys, 1) if key == self.time}
        return Output([*self.names()], frozenset(times), len(self.keys), self.width, True)

    def names(self) -> tuple[str, ...]:
        """The names of its columns."""
        return (self.bucket, *self.keys, *(value.name for value in self.values))


def checked_name(name: str) -> str:
    """A name as the SQL has it, in lower case."""
    if not NAME.fullmatch(name.lower().encode("utf-8", "replace")):
        raise Trouble(f"`{''.join(char if char.isprintable() else '?' for char in name[:80])}` is no name")
    return name.lower()


def checked_text(text: str, what: str) -> str:
    """A text without control characters, so that it can neither end a line nor begin a statement."""
    if not text.isprintable():
        raise Trouble(f"{what} has a control character or a line's end in it")
    return text


def journal_of(folder: str | Path) -> bytes:
    """The bytes of a folder's journal, which must be there."""
    journal = journal_in(folder)
    if not journal:
        raise Trouble(f"there is no {JOURNAL} in {folder}")
    return journal


def roster(file: bytes) -> History:
    """The tables and aggregates of a journal, without its rows."""
    history = History()
    try:
        for _, payload in payloads(file):
            if is_base(file, payload):
                for relation in roster_of(payload):
                    history.add(relation)
            elif payload[:1] and payload[0] in (TABLE, HYPER, VIEW, MODE):
                history.add(event(payload))
    except Wrong:
        raise Trouble("the journal is damaged: `tsctl check` says where") from None
    except Damaged as damaged:
        raise Trouble(str(damaged)) from None
    return history


def value_of(name: str, function: Function, table: Relation) -> Value:
    """A function's column of this name."""
    if function.name == "count(*)":
        return Value(name, function.name)
    return Value(name, function.name, table.numbered()[function.column][0],
                 function.name in ("min", "max") and function.column == 0)  # fmt: skip


def defined(view: View, table: Relation, kept_from: int | None) -> Aggregate:
    """An aggregate, by its event and that of its table."""
    numbered = table.numbered()
    named = view.names[1 + len(view.keys) :]
    return Aggregate(
        name=view.name, bucket=view.names[0], width=view.width, offset=view.offset,
        keys=tuple(view.names[1 : 1 + len(view.keys)]),
        values=tuple(value_of(name, function, table) for name, function in zip(named, view.functions)),
        is_real_time=not view.only, table=table.name, time=numbered[0][0],
        columns=tuple(name for name, _ in table.columns),
        never_null=frozenset([numbered[0][0], *(name for name, must in table.columns if must)]),
        kept_from=kept_from,
    )  # fmt: skip


def aggregate_in(folder: str | Path, name: str) -> Aggregate:
    """The aggregate of this name in a folder."""
    name = checked_name(name)
    history = roster(journal_of(folder))
    for view in history.views:
        if view.name == name:
            return defined(view, history.tables[view.table], JournalDrops(folder).kept_from(name))
    kind = "isn't an aggregate" if any(table.name == name for table in history.tables) else "isn't there"
    there = ", ".join(view.name for view in history.views)
    raise Trouble(f"{name} {kind}; " + (f"aggregates are {there}" if there else "there is no aggregate"))
