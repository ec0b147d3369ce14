"""`tsq import`: the tables of a plain `pg_dump` into a new folder, one commit a table, and aggregates of its views."""
from __future__ import annotations

import argparse
import shutil
import sys
import tempfile
from collections.abc import Iterator
from contextlib import ExitStack
from pathlib import Path
from typing import IO

from .blocks import pieces
from .imported import (
    MOST_TABLES, Imported, Options, Source, in_range, look, name_here, part_names, reader, scales_of, source_of,
    unit_of,
)  # fmt: skip
from .load import width, zone
from .messages import Trouble, say
from .names import Names, Unit
from .options import Commands, scale, times_option
from .pg_dump import Dump, View
from .pg_views import Fold
from .programs import Ended
from .reading import MOST_TOLD
from .sending import Sender
from .values import NANOSECONDS, Bad, Texts, Times

# That of TimescaleDB: seven days.
SECONDS_OF_CHUNK = 604800


def add_command(commands: Commands) -> None:
    """`tsq import`."""
    parser = commands.add_parser("import", help="bring the tables of a pg_dump into a new folder")
    parser.add_argument("dump", metavar="DUMP", help="a plain dump of pg_dump, or - for standard input")
    parser.add_argument("--into", required=True, type=Path, metavar="FOLDER", help="the folder, which is made")
    times_option(parser, "the unit of times; without it the one that loses nothing")
    time = "the time column of tables without a date, or with several; may be given several times"
    parser.add_argument("--time", action="append", default=[], metavar="NAME", help=time)
    parser.add_argument("--zone", type=zone, metavar="NAME", help="the zone of dates without one, instead of UTC")
    null = "a cell that is NULL, such as NaN or infinity; may be given several times"
    parser.add_argument("--null", action="append", default=[], metavar="TEXT", help=null)
    rounds = "round a column to N digits after the point; may be given several times"
    parser.add_argument("--round", type=scale, action="append", default=[], metavar="NAME=N", help=rounds)
    parser.add_argument(
        "--chunk", type=width, metavar="N", help="the chunk interval in units of the times; else 7 days"
    )
    parser.set_defaults(call=import_)


# ---- the dump


def opened(name: str, files: ExitStack) -> IO[bytes]:
    """The dump's file, which is read several times; standard input is written to one."""
    try:
        if name != "-":
            return files.enter_context(open(name, "rb"))
        spool = files.enter_context(tempfile.TemporaryFile())
        shutil.copyfileobj(sys.stdin.buffer, spool)
        spool.seek(0)
        return spool
    except OSError as error:
        raise Trouble(f"{name}: {error.strerror}") from None


class Problems:
    """Cells that can't be taken; the first of them are said."""

    def __init__(self) -> None:
        self.count = 0

    def add(self, line: int, source: Source, place: int, text: str | None, bad: Bad) -> None:
        """Says what is wrong with a cell."""
        self.count += 1
        if self.count <= MOST_TOLD:
            column = source.table.columns[place].name
            say(f"line {line}, {source.table.name}.{column}: `{'NULL' if text is None else text}` {bad}")

    def end(self) -> None:
        """Ends the import if there were any."""
        if self.count > MOST_TOLD:
            say(f"and {self.count - MOST_TOLD} more")
        if self.count:
            raise Trouble("nothing is imported")


def cells_of(dump: Dump, source: Source, options: Options) -> Iterator[tuple[int, list[str | None]]]:
    """The rows of a table, in which further texts are NULL."""
    for line, cells in dump.rows(source.table):
        yield line, [None if cell in options.nulls else cell for cell in cells] if options.nulls else cells


def look_at_all(dump: Dump, sources: list[Source], options: Options, problems: Problems) -> None:
    """Looks at each cell once, for units, scales and NULLs."""
    for source in sources:
        for line, cells in cells_of(dump, source, options):
            source.rows += 1
            for place, cell in enumerate(cells):
                try:
                    look(source, place, cell)
                    if cell is None and place == source.time:
                        raise Bad("is no time")
                except Bad as bad:
                    problems.add(line, source, place, cell, bad)


class Reading:
    """Reads rows as numbers."""

    def __init__(self, times: Times, scales: dict[str, int], names: Names) -> None:
        self.times = times
        self.scales = scales
        self.names = names
        self.texts: dict[str, Texts] = {}

    def rows(self, dump: Dump, source: Source, options: Options, problems: Problems) -> Iterator[str]:
        """The rows of a table as a statement has them."""
        readers = [
            reader(column, self.scales.get(column.name, 0), self.times, self.texts, self.names)
            for column in source.columns
        ]
        known: list[dict[str | None, str]] = [{None: "null"} for _ in readers]
        for line, cells in cells_of(dump, source, options):
            values = []
            for place, cell in enumerate(cells):
                value = known[place].get(cell)
                if value is None:
                    try:
                        value = in_range(source.columns[place], readers[place](cell or ""))
                    except Bad as bad:
                        problems.add(line, source, place, cell, bad)
                        value = "0"
                    if len(known[place]) < 10000:
                        known[place][cell] = value
                values.append(value)
            yield ",".join(values)


# ---- the folder


def definitions(source: Source, interval: int) -> Iterator[str]:
    """The statements that make a table. A column is NOT NULL as there."""
    columns = ", ".join(f"{it.name} BIGINT{' NOT NULL' * it.is_not_null}" for it in source.columns)
    yield f"CREATE TABLE {source.name} ({columns})"
    time = source.columns[source.time].name
    yield f"SELECT create_hypertable('{source.name}', '{time}', chunk_time_interval => {interval})"


def make(sender: Sender, statement: str) -> None:
    """Puts in a statement that has to be taken."""
    reply = sender.ask(statement)
    if reply.fault():
        raise Trouble(f"tsctl answers {reply.texts()[0]} to {statement}")


def make_tables(
    dump: Dump, sources: list[Source], reading: Reading, options: Options, folder: Path, interval: int
) -> None:
    """Makes the tables with their rows."""
    for source in sources:
        time = source.columns[source.time].name
        with Sender(folder, source.name, time, "import", False) as sender:
            for statement in definitions(source, interval):
                make(sender, statement)
            positions = []
            for rows in pieces(reading.rows(dump, source, options, Problems())):
                sender.make_room(rows)
                positions.append(sender.commit(rows))
            shown = ", ".join(f"@{position}" for position in positions)
            print(f"table {source.name}: {source.rows} rows" + f" in {shown}" * bool(shown))


def make_views(dump: Dump, fold: Fold, options: Options, folder: Path, taken: set[str]) -> None:
    """Makes an aggregate of each view that is one."""
    with Sender(folder, "", "", "import", False) as sender:
        for name, view in views_of(dump, taken):
            try:
                statement = fold.definition(name, view.query)
                reply = sender.ask(statement)
                if reply.fault():
                    raise Bad(f"is refused: {reply.texts()[0]}")
                print(f"aggregate {name}")
            except Bad as bad:
                options.left_out.append(f"view {view.name}: it {bad}")


def views_of(dump: Dump, taken: set[str]) -> Iterator[tuple[str, View]]:
    """The views of a dump with their names here. A continuous aggregate's query is that of its direct view, and views
    of TimescaleDB's own are none."""
    names = dump.direct_views()
    for view in dump.views:
        schema, _, name = view.name.rpartition(".")
        if view.name in names:
            yield name_here(names[view.name], taken), view
        elif not schema.startswith("_timescaledb") and "_materialized_hypertable_" not in view.query:
            yield name_here(name, taken), view


def interval_of(chunk: int | None, unit: Unit) -> int:
    """The chunk interval."""
    return chunk or SECONDS_OF_CHUNK * 10**9 // NANOSECONDS[unit]


def tell(sources: list[Source], reading: Reading, options: Options) -> None:
    """Says what columns became, and what was left out."""
    print(f"times in {reading.times.unit}")
    for name, power in sorted(reading.scales.items()):
        print(f"column {name}: times 10^{power}")
    for name, texts in sorted(reading.texts.items()):
        print(f"column {name}: {len(texts.new())} texts")
    for source in sources:
        for column, declared in zip(source.columns, source.table.columns):
            tell_column(source, column, declared.name, column is source.columns[source.time])
    for line in options.left_out:
        say(f"left out: {line}")


def tell_column(source: Source, column: Imported, declared: str, is_time: bool) -> None:
    """Says what is no longer as it was in a column."""
    if column.name != declared:
        say(f"{source.table.name}.{declared} is {source.name}.{column.name}")
    if column.rounded:
        say(f"{source.name}.{column.name}: numbers were rounded")
    if column.kind == "time" and not is_time:
        say(f"{source.name}.{column.name} is a date that isn't the time: a number since 1970 from now on")


def import_(arguments: argparse.Namespace) -> int:
    """Imports a dump: all of it into a folder beside the wanted one, which then takes its name."""
    folder: Path = arguments.into
    if folder.exists() and any(folder.iterdir()):
        raise Trouble(f"{folder} isn't empty: a dump is imported into a new folder")
    nulls = frozenset(arguments.null)
    options = Options(nulls, [it.lower() for it in arguments.time], {name.lower(): n for name, n in arguments.round})
    with ExitStack() as files:
        dump = Dump(opened(arguments.dump, files))
        folder.parent.mkdir(parents=True, exist_ok=True)
        new = Path(files.enter_context(tempfile.TemporaryDirectory(prefix=".tsq_import_", dir=folder.parent)))
        try:
            import_dump(dump, arguments, options, new / folder.name)
        except Ended as ended:
            raise Trouble(f"tsctl has ended with status {ended.status}: nothing is imported") from None
        if folder.exists():
            folder.rmdir()
        (new / folder.name).rename(folder)
    return 0


def import_dump(dump: Dump, arguments: argparse.Namespace, options: Options, folder: Path) -> None:
    """Imports a dump into a folder that isn't there yet."""
    folder.mkdir()
    taken: set[str] = set()
    tables = [table for table in dump.whole_tables() if not table.name.startswith("_timescaledb")]
    sources = [it for it in (source_of(table, taken, options) for table in tables) if it]
    if not sources or len(sources) > MOST_TABLES:
        raise Trouble(f"the dump has {len(sources)} tables that can be taken; wanted are 1 to {MOST_TABLES}")
    part_names(sources)
    problems = Problems()
    look_at_all(dump, sources, options, problems)
    problems.end()
    names = Names.read(folder)
    reading = Reading(Times(unit_of(sources, arguments.times), arguments.zone), scales_of(sources, options), names)
    for source in sources:
        for _ in reading.rows(dump, source, options, problems):
            pass
    problems.end()
    unit = reading.times.unit or "s"
    names.remember(
        [(column, text) for column, texts in reading.texts.items() for text in texts.new()], reading.scales, unit
    )
    make_tables(dump, sources, reading, options, folder, interval_of(arguments.chunk, unit))
    make_views(dump, Fold(sources, names, unit, reading.scales), options, folder, taken)
    tell(sources, reading, options)
