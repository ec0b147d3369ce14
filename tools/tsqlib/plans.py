"""What `tsq load` does with the columns of a file, by its options, its header and the table."""
from __future__ import annotations

import argparse
import re
from dataclasses import dataclass
from typing import TextIO

from .messages import Trouble
from .names import Names
from .schema import Hypertable
from .sources import Csv, Json, LineProtocol, Source
from .statements import SESSION
from .values import DATE, NUMBER, Column, Texts, Times

WORD = re.compile(r"[A-Za-z_][A-Za-z0-9_]{0,62}")


@dataclass
class Plan:
    """What becomes of the cells of a row: the columns in the order in which they are put in, and the place of the time
    among them. A column that the file hasn't is None."""

    source: Source
    count: int
    columns: list[Column | None]
    at: int
    times: Times
    texts: list[Texts]

    def time(self) -> Column:
        """The time column."""
        column = self.columns[self.at]
        assert column
        return column


def key_names(options: argparse.Namespace) -> dict[str, str] | None:
    """The keys of columns as `--columns NAME=KEY,..` has them; nothing if it names columns by their order."""
    items = [item.strip() for item in (options.columns or "").split(",") if item.strip()]
    if not any("=" in item for item in items):
        return None
    pairs = [item.partition("=") for item in items]
    if len({name.lower() for name, _, _ in pairs}) < len(pairs):
        raise Trouble("--columns has a name twice")
    return {name.strip().lower(): key.strip() or name.strip() for name, _, key in pairs}


def holds_no_names(header: list[str]) -> bool:
    """Whether all cells of a header are numbers or dates."""
    cells = [cell for cell in header if cell]
    return bool(cells) and all(NUMBER.fullmatch(cell) or DATE.fullmatch(cell) for cell in cells)


def csv_places(options: argparse.Namespace, source: Csv, table: Hypertable | None) -> tuple[list[str], int]:
    """The table's column of each column of a CSV file, in lower case, and how many columns the file has."""
    header = None if source.names is None else [name.lower() for name in source.names]
    if header and holds_no_names(header):
        raise Trouble("the first line holds no names, but a row: leave out --header")
    keys = key_names(options)
    if header is None and (keys or options.columns is None):
        raise Trouble("--header is needed for names of the file's columns; --columns NAME,.. names them by their order")
    if keys:
        return named_places(keys, header or []), len(header or [])
    if options.columns is None:
        check_known(header or [], table)
        return header or [], len(header or [])
    names = [name.strip().lower() for name in options.columns.split(",")]
    if header:
        check_names(header, names)
    return names, len(names)


def named_places(keys: dict[str, str], header: list[str]) -> list[str]:
    """The table's column of each column of a file with these names."""
    columns = {key.lower(): name for name, key in keys.items()}
    for key in columns:
        if header.count(key) != 1:
            raise Trouble(f"the file has {'no' if key not in header else 'more than one'} column {key}")
    return [columns.get(name, "") for name in header]


def check_known(header: list[str], table: Hypertable | None) -> None:
    """That a file's names, which stand for --columns, are those of the table."""
    for name in header if table else []:
        if table and name not in table.names:
            raise Trouble(
                f"{table.name} has no column {name or '``'}: --columns {','.join(table.names)} says which ones"
                " these are"
            )


def check_names(header: list[str], names: list[str]) -> None:
    """That none of the columns has the name of another column of the file, as if two were exchanged."""
    for place, name in enumerate(names):
        if name and name in header and name != "".join(header[place : place + 1]):
            other = header.index(name) + 1
            raise Trouble(f"--columns has {name} for column {place + 1} of the file, but it is column {other}")


def object_keys(options: argparse.Namespace, table: Hypertable | None) -> dict[str, str]:
    """The key of each column that an object has."""
    keys = key_names(options)
    if keys:
        return keys
    if options.columns:
        names = [name.strip().lower() for name in options.columns.split(",") if name.strip()]
    elif table:
        names = table.names
    else:
        raise Trouble("--columns is needed without --into")
    keys = {name: name for name in names}
    if options.format == "influx":
        keys[time_name(options, names, table)] = "time"
    return keys


def time_name(options: argparse.Namespace, names: list[str], table: Hypertable | None) -> str:
    """The time column."""
    given: str = options.time.lower() if options.time else ""
    if table and given not in ("", table.time):
        raise Trouble(f"--time {given}: the time column of {table.name} is {table.time}")
    return table.time if table else given or next(filter(None, names), "")


def plan_of(options: argparse.Namespace, text: TextIO, names: Names, table: Hypertable | None) -> Plan:
    """What is loaded, by the options, the file's header and the table, of which each name is checked."""
    source: Source
    if options.format == "csv":
        source = Csv(text, options.delimiter, options.header)
        loaded, count = csv_places(options, source, table)
    else:
        keys = object_keys(options, table)
        loaded, count = list(keys), len(keys)
        measurement = options.measurement or options.table
        order = list(keys.values())
        source = LineProtocol(text, order, measurement) if options.format == "influx" else Json(text, order)
    time = time_name(options, loaded, table)
    check_loaded(options, loaded, time, table)
    times = Times(options.times or names.times, options.zone, options.epoch, options.doubled == "second")
    texts = text_columns(options, loaded, time, names)
    check_scales(options, loaded, time, times, texts)
    given = dict_of_scales(options)
    columns = {
        name: Column(
            name, place, given.get(name, names.scale_of(name)), times if name == time else None,
            texts.get(name), bool(table and name in table.not_null), name in names.scales,
        )
        for place, name in enumerate(loaded) if name
    }  # fmt: skip
    order = table.names if table else list(columns)
    return Plan(source, count, [columns.get(name) for name in order], order.index(time), times, list(texts.values()))


def dict_of_scales(options: argparse.Namespace) -> dict[str, int]:
    """The powers of ten by their columns."""
    return {name.lower(): power for name, power in options.scale}


def check_loaded(options: argparse.Namespace, names: list[str], time: str, table: Hypertable | None) -> None:
    """That the names are names, each once, and those of the table."""
    loaded = [name for name in names if name]
    for word in [options.table, *loaded]:
        if not WORD.fullmatch(word):
            raise Trouble(f"`{word}` is no name")
    if not SESSION.fullmatch(f"{options.session}:"):
        raise Trouble(f"`{options.session}` is no name of a session")
    if time not in loaded or len(set(loaded)) < len(loaded):
        raise Trouble("--columns has to hold the time column, and each name once")
    if table:
        for name in loaded:
            if name not in table.names:
                raise Trouble(f"{table.name} has no column {name}; it has {', '.join(table.names)}")
        for name in table.not_null:
            if name not in loaded:
                raise Trouble(f"{table.name} takes no NULL in {name}, which isn't loaded")


def check_scales(
    options: argparse.Namespace, loaded: list[str], time: str, times: Times, texts: dict[str, Texts]
) -> None:
    """That scales and units are of columns that may have one."""
    for name, power in dict_of_scales(options).items():
        if name not in loaded:
            raise Trouble(f"--scale {name}={power}: --columns has no such name")
        if name == time and times.unit:
            raise Trouble(f"--scale {name}={power}: --times says what its unit is")
        if name in texts:
            raise Trouble(f"--scale {name}={power}: it is a column of texts")
    if times.unit is None and (times.zone or times.epoch or options.format == "influx"):
        raise Trouble("--times s, ms or us is needed: it says what times are kept as")
    if options.format == "influx" and not times.epoch:
        times.epoch = "ns"


def text_columns(options: argparse.Namespace, loaded: list[str], time: str, names: Names) -> dict[str, Texts]:
    """The columns of texts: those that the options name, and those that have texts already."""
    given = [name.strip().lower() for name in options.texts.split(",") if name.strip()]
    if given and not options.into:
        raise Trouble("--texts needs --into, whose folder remembers them")
    for name in given:
        if name not in loaded or name == time:
            raise Trouble(f"--texts {name}: no column but the time is loaded by this name")
    wanted = set(given) | {name for name in loaded if name and names.has_texts(name)}
    return {name: Texts(name, names) for name in wanted}
