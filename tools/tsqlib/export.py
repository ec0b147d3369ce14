"""`tsq export`: a journal as SQL for TimescaleDB or PostgreSQL, to be loaded by psql."""
from __future__ import annotations

import argparse
from collections.abc import Iterable, Iterator
from pathlib import Path
from typing import NamedTuple

from . import programs
from .columns import Kind, Kinds, column_names, numbered
from .content import Content
from .exported_policies import policies_of
from .exported_stale import stale_tables
from .history import History, Relation
from .journal import Damaged, Row, View
from .log import DAMAGED
from .messages import Trouble, say
from .names import Names, Unit
from .options import JOURNAL, NAME, Commands, journal_of, journal_option, scale_option, snapshot_option, times_option
from .packed import Left
from .postgres import column_name, interval, quoted, text_literal, time_literal
from .values import NANOSECONDS

MOST_CHUNKS = 1000
# The start of the year 1, in seconds since 1970. Buckets are counted from about then, so that few dates lie before.
YEAR_1 = -62135596800
# 2000-01-03, from which time_bucket of TimescaleDB counts.
BUCKET_ORIGIN = 946857600


# ---- the options


def chunk(text: str) -> int:
    """A chunk interval."""
    if not text.isdecimal() or len(text) > 16 or int(text) == 0:
        raise argparse.ArgumentTypeError(f"{text}: wanted is a whole number from 1")
    return int(text)


def schema_name(text: str) -> str:
    """The name of a schema."""
    if not NAME.fullmatch(text):
        raise argparse.ArgumentTypeError(f"{text}: wanted is a name in lower case")
    return text


def add_command(commands: Commands) -> None:
    """`tsq export`."""
    parser = commands.add_parser("export", help="print a journal as SQL for TimescaleDB or PostgreSQL")
    journal_option(parser)
    snapshot_option(parser)
    parser.add_argument("--plain", action="store_true", help="for PostgreSQL without TimescaleDB")
    stale = "also what aggregates show of stale buckets, as tsctl answers it, into tables NAME_stale"
    parser.add_argument("--stale", action="store_true", help=stale)
    times_option(parser, "times become TIMESTAMPTZ; without it they do if the folder remembers their unit")
    scale_option(
        parser, "a column is NUMERIC with N digits after the point, such as temp=2; may be given several times"
    )
    parser.add_argument("--bigint", action="store_true", help="all columns stay whole numbers, whatever is remembered")
    parser.add_argument("--chunk", type=chunk, metavar="N", help="another chunk interval, in units of the times")
    parser.add_argument("--schema", type=schema_name, default="public", help="where the tables are made; else public")
    parser.add_argument("--policies", metavar="FILE", help="also the policies that this script adds")
    parser.set_defaults(call=export)


class Target(NamedTuple):
    """What is exported to: the schema, the form, and what columns become."""

    kinds: Kinds
    schema: str
    is_plain: bool
    chunk: int | None

    def relation(self, name: str) -> str:
        """The name of a table or an aggregate. Without its schema it could be one of the system's."""
        return f"{self.schema_text()}.{quoted(name)}"

    def literal(self, name: str) -> str:
        """The name as TimescaleDB's functions take it."""
        return text_literal(self.relation(name))

    def schema_text(self) -> str:
        """The schema as it is written."""
        return self.schema if self.schema == "public" else quoted(self.schema)

    def length(self, length: int, has_days: bool = True) -> str:
        """A length of time, in the type of the times."""
        return interval(length, self.kinds.unit, has_days) if self.kinds.unit else f"BIGINT '{length}'"

    def time(self, number: int) -> str:
        """A time."""
        return time_literal(number, self.kinds.unit) if self.kinds.unit else f"BIGINT '{number}'"


# ---- tables


def create_table(table: Relation, target: Target) -> Iterator[str]:
    """A table, its columns in declared order."""
    names = [name for name, _ in table.columns]
    kinds = {name: kind for (name, _), kind in zip(numbered(table), target.kinds.of_table(table))}
    yield f"CREATE TABLE {target.relation(table.name)} ("
    yield ",\n".join(
        f"  {column_name(name, names)} {kinds[name].sql_type()}{' NOT NULL' * must}" for name, must in table.columns
    )
    yield ");"


def create_hypertable(number: int, table: Relation, interval_of_chunks: int, target: Target) -> Iterator[str]:
    """A hypertable, with the function that TimescaleDB asks for if times are numbers."""
    time = column_names(table)[0]
    literal = target.literal(table.name)
    length = f"chunk_time_interval => {target.length(interval_of_chunks)}"
    yield f"SELECT create_hypertable({literal}, {text_literal(time[1:-1])}, {length}) \\g /dev/null"
    if not target.kinds.unit:
        name = f"{target.schema_text()}.tsctl_now_{number}"
        body = f"SELECT coalesce(max({time}), 0) FROM {target.relation(table.name)}"
        yield f"CREATE FUNCTION {name}() RETURNS BIGINT LANGUAGE SQL STABLE AS $$ {body} $$;"
        yield f"SELECT set_integer_now_func({literal}, {text_literal(name)}) \\g /dev/null"


def chunks_of(table: Relation, rows: Left, target: Target) -> int:
    """The chunk interval. One that makes very many chunks is told, since each is a table there."""
    assert table.hyper
    length = target.chunk or table.hyper.interval
    if target.is_plain or rows.width() // length + 2 <= MOST_CHUNKS:
        return length
    count = len({row[0] // length for row in rows})
    if count > MOST_CHUNKS:
        say(f"{table.name}: {count} chunks of {length}, each of which is a table there; --chunk N makes fewer")
    return length


def copy(name: str, columns: Iterable[str], kinds: list[Kind], rows: Iterable[Row], target: Target) -> Iterator[str]:
    """Rows by COPY."""
    yield f"COPY {target.relation(name)} ({', '.join(columns)}) FROM stdin;"
    cells = [target.kinds.cell(kind) for kind in kinds]
    for row in rows:
        yield "\t".join("\\N" if value is None else cell(value) for value, cell in zip(row, cells))
    yield "\\."


# ---- aggregates


def origin(view: View, unit: Unit, near: int) -> int:
    """The start of the first bucket from the time `near` on, which is in seconds since 1970."""
    time = near * 10**9 // NANOSECONDS[unit]
    return time + (view.offset - time) % view.width


def bucket(view: View, time: str, target: Target) -> str:
    """The start of the bucket of a row."""
    unit = target.kinds.unit
    width = target.length(view.width)
    name = f"{target.schema_text()}.time_bucket" if target.is_plain else "time_bucket"
    if unit is None:
        offset = f", BIGINT '{view.offset}'" if view.offset or target.is_plain else ""
        return f"{name}({width}, {time}{offset})"
    if target.is_plain:
        return f"{name}({width}, {time}, {time_literal(origin(view, unit, YEAR_1), unit)})"
    start = origin(view, unit, BUCKET_ORIGIN)
    is_usual = start * NANOSECONDS[unit] == BUCKET_ORIGIN * 10**9
    return f"{name}({width}, {time}{'' if is_usual else ', origin => ' + time_literal(start, unit)})"


def bucket_function(target: Target) -> Iterator[str]:
    """`time_bucket` for PostgreSQL. Its `%` has the sign of what is divided."""
    if target.kinds.unit:
        words, result, body = (
            "width INTERVAL, t TIMESTAMPTZ, origin TIMESTAMPTZ",
            "TIMESTAMPTZ",
            "date_bin(width, t, origin)",
        )
    else:
        words, result, body = (
            "width BIGINT, t BIGINT, start BIGINT",
            "BIGINT",
            "t - ((t - start) % width + width) % width",
        )
    yield f"CREATE FUNCTION {target.schema_text()}.time_bucket({words}) RETURNS {result}"
    yield f"LANGUAGE SQL IMMUTABLE PARALLEL SAFE AS $$ SELECT {body} $$;"


def fold(view: View, table: Relation, target: Target) -> Iterator[str]:
    """The query that an aggregate is."""
    columns = column_names(table)
    items = [bucket(view, columns[0], target), *(columns[key] for key in view.keys)]
    count = len(items)
    for function in view.functions:
        items.append("count(*)" if function.name == "count(*)" else f"{function.name}({columns[function.column]})")
    names = [column_name(name, view.names) for name in view.names]
    yield "SELECT"
    yield ",\n".join(f"  {item}" + f" AS {name}" * (item != name) for item, name in zip(items, names))
    yield f"FROM {target.relation(table.name)}"
    if view.tests:
        yield "WHERE " + " AND ".join(target.kinds.condition(test, table) for test in view.tests)
    yield f"GROUP BY {', '.join(str(place) for place in range(1, count + 1))}"


def create_view(view: View, table: Relation, target: Target) -> Iterator[str]:
    """An aggregate: a continuous one in the mode that it has, or a view."""
    lines = "\n".join(fold(view, table, target))
    if target.is_plain:
        yield f"CREATE VIEW {target.relation(view.name)} AS\n{lines};"
        return
    options = f"timescaledb.continuous, timescaledb.materialized_only = {str(view.only).lower()}"
    yield f"CREATE MATERIALIZED VIEW {target.relation(view.name)}"
    yield f"WITH ({options}) AS\n{lines}\nWITH NO DATA;"


def refreshes(view: View, windows: list[tuple[int, int]], target: Target) -> Iterator[str]:
    """A refresh of each window that was refreshed. They can't stand in a transaction."""
    for start, end in windows:
        low = "NULL" if start == view.first() else target.time(start)
        yield f"CALL refresh_continuous_aggregate({target.literal(view.name)}, {low}, {target.time(end)});"


# ---- all of it


def tables(content: Content, history: History, target: Target) -> Iterator[str]:
    """The tables with their rows."""
    for number, table in enumerate(history.tables):
        yield from create_table(table, target)
        if not table.hyper:
            continue
        rows = content.rows.get(number, Left())
        length = chunks_of(table, rows, target)
        if target.is_plain:
            yield f"CREATE INDEX ON {target.relation(table.name)} ({column_names(table)[0]});"
        else:
            yield from create_hypertable(number, table, length, target)
        yield from copy(table.name, column_names(table), target.kinds.of_table(table), rows, target)


def statements(
    content: Content, history: History, target: Target, stale: list[str], policies: list[str]
) -> Iterator[str]:
    """The lines of the export. All but the refreshes is one transaction, so that a part of it never is there."""
    yield f"-- The journal of tsctl at position {history.position}, for `psql -v ON_ERROR_STOP=1 -f`."
    if not target.is_plain and not policies:
        yield (
            "-- Policies belong to sessions and aren't in a journal: `tsq export --policies FILE` takes those of a"
            " script."
        )
    yield "BEGIN;"
    if target.schema != "public":
        yield f"CREATE SCHEMA IF NOT EXISTS {target.schema_text()};"
    if target.is_plain and history.views:
        yield from bucket_function(target)
    yield from tables(content, history, target)
    for view in history.views:
        yield from create_view(view, history.tables[view.table], target)
    yield from stale
    yield "COMMIT;"
    if not target.is_plain:
        for number, view in enumerate(history.views):
            yield from refreshes(view, content.refreshed(number), target)
        yield from policies


def tell_left_out(content: Content, history: History) -> None:
    """Says where an aggregate may show something of rows that are no longer there."""
    if content.has_removed() and history.views:
        say("rows were removed: what an aggregate still shows of them is exported by `--stale` only")
    elif content.has_groups:
        say("what an aggregate still shows of rows that were removed before the image is exported by `--stale` only")


def tell_kinds(kinds: Kinds) -> None:
    """Says which columns of texts aren't texts, or not all of them."""
    for name in sorted(kinds.numbers):
        say(f"{name} stays a column of numbers, since an aggregate compares or adds up its numbers")
    for name, count in sorted(kinds.without_text.items()):
        say(f"{name}: {count} numbers have no text, and are exported as their digits")


def target_of(options: argparse.Namespace, history: History) -> Target:
    """What is exported to."""
    names = Names(Path())
    if not options.bigint:
        names = Names.read(Path(journal_of(options)).parent)
    elif options.times or options.scale:
        raise Trouble("--bigint leaves out what --times and --scale ask for")
    scales = {name.lower(): power for name, power in options.scale}
    known = {name for table in history.tables for name, _ in table.columns}
    for name in scales:
        if name not in known:
            raise Trouble(f"--scale {name}={scales[name]}: no table has this column")
    kinds = Kinds(names, options.times or names.times, scales)
    for view in history.views:
        kinds.check(view, history.tables[view.table])
    return Target(kinds, options.schema, options.plain, options.chunk)


def export(options: argparse.Namespace) -> int:
    """Prints the export of a journal. One that is damaged, or has no event, gives nothing."""
    journal = programs.read(journal_of(options))
    try:
        content = Content(journal)
    except Damaged as damaged:
        say(str(damaged))
        return DAMAGED
    history = content.history
    if not history:
        say(f"{options.journal or JOURNAL} has no event")
        return 0
    target = target_of(options, history)
    if options.policies and target.is_plain:
        raise Trouble("--policies needs TimescaleDB: PostgreSQL without it has none")
    # tsctl is asked first, so that nothing is printed if it doesn't answer.
    stale = list(stale_tables(history, journal, target)) if options.stale else []
    policies = list(policies_of(options.policies, history, target)) if options.policies else []
    del journal
    for line in statements(content, history, target, stale, policies):
        print(line)
    tell_kinds(target.kinds)
    if not options.stale:
        tell_left_out(content, history)
    return 0
