"""What the columns of an answer are called: from the journal of a folder, and from the statements of a script."""
from __future__ import annotations

import mmap
from collections.abc import Iterator, Sequence
from contextlib import contextmanager
from pathlib import Path
from typing import NamedTuple

from .history import History, Relation
from .image import roster_of
from .journal import HYPER, MODE, TABLE, VIEW, Bytes, Damaged, View, Wrong, event, is_base, payloads
from .messages import Trouble


class Output(NamedTuple):
    """The columns of an answer: their names, the places of those that are times, and how many are keys.

    `width` is that of the buckets if the rows are buckets, and `is_view` says that an aggregate was asked. `units` has,
    for each column, the table's column whose unit it has: texts and scales of that one are its own. A count has none.
    """

    names: list[str]
    times: frozenset[int] = frozenset()
    keys: int = 0
    width: int | None = None
    is_view: bool = False
    units: tuple[str | None, ...] = ()


def distinct(names: Sequence[str]) -> list[str]:
    """The names, with `_2`, `_3` and so on behind one that stands in front of it."""
    out: list[str] = []
    for name in names:
        new, count = name, 2
        while new in out:
            new, count = f"{name}_{count}", count + 1
        out.append(new)
    return out


def split(tokens: Sequence[str]) -> list[list[str]]:
    """Tokens parted at the commas that stand in no parentheses."""
    parts: list[list[str]] = [[]]
    depth = 0
    for token in tokens:
        depth += (token == "(") - (token == ")")
        if token == "," and depth == 0:
            parts.append([])
        else:
            parts[-1].append(token)
    return parts


def is_as(tokens: Sequence[str], place: int) -> bool:
    """Whether the word at a place is that of `AS x`, which stands behind a parenthesis, and no name."""
    return tokens[place] == "as" and tokens[place - 1] == ")"


def list_end(tokens: Sequence[str]) -> int:
    """The place of the FROM that ends a SELECT list. A column may be called `from` too."""
    for place, token in enumerate(tokens):
        if token == "from" and tokens[place - 1] not in (",", "(") and not is_as(tokens, place - 1):
            return place
    return len(tokens)


def source_of(tokens: Sequence[str]) -> str:
    """The relation that a SELECT asks."""
    return "".join(tokens[list_end(tokens) + 1 :][:1])


def bucket_column(bucket: Sequence[str]) -> str:
    """The column whose buckets these tokens make, of a fixed width or of the calendar."""
    return bucket[6] if bucket[0] == "calendar_bucket" else bucket[4]


def unit_of(item: Sequence[str], bucket: str, units: dict[str, str | None]) -> str | None:
    """The column whose unit an item of a SELECT list has. `units` has those of the columns that are read, if they are
    known, and `bucket` is the column of the buckets."""
    if len(item) == 1:
        name: str = item[0]
    elif item[0] == "count":
        return None
    else:
        name = item[2] if item[0] in ("sum", "min", "max", "avg") else bucket
    return units.get(name, name)


def fold_output(
    tokens: Sequence[str], is_view: bool, times_read: frozenset[str] = frozenset(), source: Output | None = None
) -> Output:
    """The columns of a fold, from the tokens behind its SELECT, over columns of which these are times too. `source` has
    the columns of what is asked, if it is known."""
    items = split(tokens[: list_end(tokens)])
    bucket = bucket_column(items[0])
    times_read |= {bucket}
    names: list[str] = []
    times, keys = {0}, 0
    for place, item in enumerate(items):
        is_key = len(item) == 1
        keys += is_key
        names.append(item[-1] if not is_key and is_as(item, len(item) - 2) else item[0])
        shown = item[0] if is_key else item[2] if item[0] in ("min", "max") else None
        if shown in times_read:
            times.add(place)
    # An aggregate's names are different; those of a query may repeat, such as `sum(v), sum(w)`.
    if len(set(names)) < len(names):
        names = ["".join(item) if name == item[0] and len(item) == 4 else name for name, item in zip(names, items)]
    read = dict(zip(source.names, source.units)) if source else {}
    units = tuple(unit_of(item, bucket, read) for item in items)
    return Output(distinct(names), frozenset(times), keys, int(items[0][2]), is_view, units)


def table_output(table: Relation) -> Output:
    """The columns of a table."""
    names = [name for name, _ in table.columns]
    times = frozenset([table.place()]) if table.hyper else frozenset[int]()
    return Output(names, times, units=tuple(names))


def view_output(view: View, table: Relation) -> Output:
    """The columns of an aggregate over a table, from its event in a journal."""
    times = {0} | {place for place, key in enumerate(view.keys, 1) if key == 0}
    functions = enumerate(view.functions, 1 + len(view.keys))
    times |= {place for place, it in functions if it.name in ("min", "max") and it.column == 0}
    columns = [name for name, _ in table.numbered()]
    counted = [None if it.name.startswith("count") else columns[it.column] for it in view.functions]
    units = (columns[0], *(columns[key] for key in view.keys), *counted)
    return Output(view.names, frozenset(times), len(view.keys), view.width, True, units)


# ---- of a journal


def definitions(file: Bytes) -> History:
    """The tables and aggregates of a journal of these bytes, up to where it is damaged. Its rows aren't read."""
    history = History()
    try:
        for _, payload in payloads(file):
            if is_base(file, payload):
                for relation in roster_of(payload):
                    history.add(relation)
            elif payload[:1] and payload[0] in (TABLE, HYPER, VIEW, MODE):
                history.add(event(payload))
    except (Damaged, Wrong):
        pass
    return history


@contextmanager
def mapped(path: Path) -> Iterator[Bytes]:
    """The bytes of a file, of which those that aren't looked at aren't read."""
    try:
        with open(path, "rb") as file:
            if path.stat().st_size == 0:
                yield b""
                return
            # It is unmapped when nobody has a part of it any longer.
            yield memoryview(mmap.mmap(file.fileno(), 0, access=mmap.ACCESS_READ))
    except OSError as error:
        raise Trouble(f"{path}: {error.strerror}") from None


class Hypertable(NamedTuple):
    """A hypertable: its columns in declared order, the one that is the time, those that are NOT NULL, and its chunk
    interval."""

    name: str
    names: list[str]
    time: str
    not_null: list[str]
    interval: int


def hypertable_of(folder: Path, name: str) -> Hypertable:
    """The hypertable of this name in the journal of a folder."""
    path = Path(folder) / "tsctl.journal"
    if not path.exists():
        make = "CREATE TABLE and create_hypertable make it"
        raise Trouble(f"{path}: there is no journal, so there is no table: {make}")
    with mapped(path) as file:
        history = definitions(file)
    tables = {table.name: table for table in history.tables}
    if name in {view.name for view in history.views}:
        raise Trouble(f"{name} is an aggregate: rows go into its table")
    if name not in tables:
        raise Trouble(f"{path} has no table {name}; it has {', '.join(tables) or 'none'}")
    table = tables[name]
    if not table.hyper:
        raise Trouble(f"{name} is no hypertable: create_hypertable makes it one")
    names = [column for column, _ in table.columns]
    not_null = [column for column, must in table.columns if must]
    return Hypertable(name, names, names[table.hyper.place], not_null, table.hyper.interval)


def learn_folder(schema: Schema, folder: Path) -> None:
    """Takes the names of a folder's journal, if there is one."""
    path = Path(folder) / "tsctl.journal"
    if path.exists():
        with mapped(path) as file:
            schema.learn_journal(file)


# ---- of a script


class Schema:
    """The tables and aggregates that are known, by their names.

    `sources` has the table of each aggregate, and `only` the aggregates that are materialized only.
    """

    def __init__(self) -> None:
        self.outputs: dict[str, Output] = {}
        self.sources: dict[str, str] = {}
        self.only: set[str] = set()

    def learn_journal(self, file: Bytes) -> None:
        """Takes what the journal of these bytes has, up to where it is damaged."""
        history = definitions(file)
        self.outputs |= {table.name: table_output(table) for table in history.tables}
        self.outputs |= {view.name: view_output(view, history.tables[view.table]) for view in history.views}
        self.sources = {view.name: history.tables[view.table].name for view in history.views}
        self.only = {view.name for view in history.views if view.only}

    def learn(self, tokens: list[str], reply: str) -> None:
        """Takes what a statement made, if its reply, without the session, says that it did."""
        if reply.startswith("TABLE @"):
            columns = [part[0] for part in split(tokens[4:-1])]
            self.outputs[tokens[2]] = Output(columns, units=tuple(columns))
        elif reply.startswith("HYPERTABLE @"):
            name, time = tokens[3].strip("'"), tokens[5].strip("'")
            if name in self.outputs:
                table = self.outputs[name]
                self.outputs[name] = table._replace(times=frozenset([table.names.index(time)]))
        elif reply.startswith("VIEW @"):
            place = tokens.index("select", 4)
            fold = tokens[place + 1 :]
            source = fold[list_end(fold) + 1]
            self.outputs[tokens[3]] = fold_output(fold, True, source=self.outputs.get(source))
            self.sources[tokens[3]] = source
            self.set_mode(tokens[3], tokens[:place])
        elif reply.startswith("MODE @"):
            self.set_mode(tokens[3], tokens)

    def set_mode(self, view: str, tokens: list[str]) -> None:
        """Takes the mode of an aggregate from the tokens that set it. One without a setting is materialized only."""
        settings = tokens[4:]
        place = settings.index("materialized_only") if "materialized_only" in settings else None
        if place is not None and settings[place + 2] == "false":
            self.only.discard(view)
        else:
            self.only.add(view)

    def output_of(self, tokens: list[str]) -> Output | None:
        """The columns of the answer to a SELECT, and nothing if they aren't known."""
        if tokens[:3] == ["select", "*", "from"]:
            return self.outputs.get(tokens[3])
        source = self.outputs.get(tokens[list_end(tokens) + 1])
        times = frozenset(source.names[place] for place in source.times) if source else frozenset[str]()
        return fold_output(tokens[1:], bool(source and source.is_view), times, source)
