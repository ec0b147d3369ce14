"""Reads a plain dump of `pg_dump`: its tables, where their rows stand in the file, and its views."""
from __future__ import annotations

import re
from collections.abc import Iterator
from dataclasses import dataclass, field
from typing import IO, NamedTuple

from .messages import Trouble
from .postgres import copied_text

IDENTIFIER = r'(?:"(?:[^"]|"")+"|[A-Za-z_][\w$]*)'
NAME = rf"{IDENTIFIER}(?:\.{IDENTIFIER})?"
CREATE_TABLE = re.compile(rf"CREATE (?:UNLOGGED )?TABLE ({NAME}) (.*)")
COLUMN = re.compile(rf"\s+({IDENTIFIER})\s+(.*?),?\s*")
# Words with which a line of a CREATE TABLE begins that is no column's.
NO_COLUMN = re.compile(r"\s+(CONSTRAINT|CHECK|UNIQUE|PRIMARY KEY|EXCLUDE|FOREIGN KEY|LIKE)\b")
TYPE_END = re.compile(r"\s+(?:COLLATE|DEFAULT|NOT NULL|GENERATED|CONSTRAINT|CHECK)\b")
INHERITS = re.compile(rf"\)?\s*INHERITS \(({NAME})")
PARTITION_OF = re.compile(rf"PARTITION OF ({NAME})")
ATTACH = re.compile(rf"ALTER TABLE (?:ONLY )?({NAME}) ATTACH PARTITION ({NAME})")
COPY = re.compile(rf"COPY ({NAME}) \((.*)\) FROM stdin;")
CREATE_VIEW = re.compile(rf"CREATE (?:MATERIALIZED )?VIEW ({NAME}) (?:WITH \(.*?\) )?AS(.*)")
ENCODING = re.compile(r"SET client_encoding = '(.*)';")
BINARY = b"PGDMP"
BEGIN = "-- PostgreSQL database dump"
END = "-- PostgreSQL database dump complete"


class Column(NamedTuple):
    """A column, its type, and whether it is NOT NULL."""

    name: str
    type: str
    is_not_null: bool


@dataclass
class Table:
    """A table by its name with its schema."""

    name: str
    columns: list[Column]
    copies: list[Copy] = field(default_factory=list)


class Copy(NamedTuple):
    """Rows in the file: the columns of their cells, the byte and the line at which they begin, and their number."""

    columns: list[str]
    place: int
    line: int
    rows: int


class View(NamedTuple):
    name: str
    query: str


def plain(identifier: str) -> str:
    """An identifier without its quotes."""
    return identifier[1:-1].replace('""', '"') if identifier.startswith('"') else identifier


def parts_of(name: str) -> list[str]:
    """A name's parts: a schema, if it has one, and what follows."""
    return [plain(part) for part in re.findall(IDENTIFIER, name)]


def full(name: str) -> str:
    """A name with its schema, without quotes."""
    parts = parts_of(name)
    return ".".join(parts if len(parts) > 1 else ["public", *parts])


class Dump:
    """What a dump holds. Its rows stay in the file, which is read again for them."""

    def __init__(self, file: IO[bytes]) -> None:
        self.file = file
        self.tables: dict[str, Table] = {}
        self.views: list[View] = []
        self.parents: dict[str, str] = {}
        self.place = 0
        self.line = 0
        self.read()

    def lines(self) -> Iterator[str]:
        """The lines from here on."""
        for raw in self.file:
            self.place += len(raw)
            self.line += 1
            yield self.decoded(raw)

    def decoded(self, raw: bytes) -> str:
        """A line as text."""
        try:
            return raw.decode().rstrip("\r\n")
        except UnicodeDecodeError:
            raise Trouble(f"line {self.line} isn't UTF-8: pg_dump --encoding UTF8") from None

    def read(self) -> None:
        """Reads all but the rows."""
        if self.file.read(len(BINARY)) == BINARY:
            raise Trouble("the dump isn't plain: pg_restore -f NAME.sql makes it so")
        self.file.seek(0)
        lines = self.lines()
        is_open = False
        for line in lines:
            is_open = line == BEGIN or is_open and line != END
            self.statement(line, lines)
        if is_open:
            raise Trouble("the dump is cut off: it has no line that says it is complete")

    def statement(self, line: str, lines: Iterator[str]) -> None:
        """Takes the statement that a line begins."""
        if found := COPY.fullmatch(line):
            self.copy(full(found[1]), [plain(it) for it in re.findall(IDENTIFIER, found[2])])
        elif found := CREATE_TABLE.fullmatch(line):
            self.table(full(found[1]), found[2], lines)
        elif found := CREATE_VIEW.fullmatch(line):
            self.views.append(View(full(found[1]), self.query(found[2], lines)))
        elif found := ATTACH.match(line):
            self.parents[full(found[2])] = full(found[1])
        elif line.startswith("INSERT INTO "):
            raise Trouble(f"line {self.line}: a dump of INSERTs isn't read: pg_dump without --inserts")
        elif (found := ENCODING.fullmatch(line)) and found[1].upper() not in ("UTF8", "SQL_ASCII"):
            raise Trouble(f"the dump is in {found[1]}: pg_dump --encoding UTF8")

    def table(self, name: str, rest: str, lines: Iterator[str]) -> None:
        """Takes a CREATE TABLE."""
        columns = []
        if found := PARTITION_OF.match(rest):
            self.parents[name] = full(found[1])
        while not rest.endswith(";"):
            rest = next(lines, ";")
            if found := INHERITS.match(rest):
                self.parents[name] = full(found[1])
            elif not NO_COLUMN.match(rest) and (found := COLUMN.fullmatch(rest)):
                columns.append(Column(plain(found[1]), TYPE_END.split(found[2])[0], " NOT NULL" in found[2]))
        self.tables[name] = Table(name, columns)

    @staticmethod
    def query(rest: str, lines: Iterator[str]) -> str:
        """The query of a view."""
        parts = [rest]
        while not parts[-1].endswith(";"):
            parts.append(next(lines, ";"))
        return "\n".join(parts).removesuffix(";")

    def copy(self, name: str, columns: list[str]) -> None:
        """Takes where the rows of a COPY are, and passes over them."""
        place, first, count = self.place, self.line + 1, 0
        for raw in self.file:
            self.place += len(raw)
            self.line += 1
            if raw.rstrip(b"\r\n") == b"\\.":
                break
            count += 1
        else:
            raise Trouble(f"the rows that begin at line {first} have no end: the dump is cut off")
        if name in self.tables:
            self.tables[name].copies.append(Copy(columns, place, first, count))

    def direct_views(self) -> dict[str, str]:
        """The names of continuous aggregates by the views that have their queries, as in TimescaleDB's catalog."""
        table = self.tables.get("_timescaledb_catalog.continuous_agg")
        if table is None:
            return {}
        wanted = ["direct_view_schema", "direct_view_name", "user_view_name"]
        places = [next((at for at, it in enumerate(table.columns) if it.name == name), 0) for name in wanted]
        rows = [[cells[place] or "" for place in places] for _, cells in self.rows(table)]
        return {f"{schema}.{view}": name for schema, view, name in rows}

    def root(self, name: str) -> str:
        """The table of which this one is a part."""
        while self.parents.get(name) in self.tables:
            name = self.parents[name]
        return name

    def whole_tables(self) -> list[Table]:
        """The tables that are part of no other, with the rows of their parts."""
        for name, table in self.tables.items():
            root = self.root(name)
            if root != name:
                self.tables[root].copies += table.copies
        return [table for name, table in self.tables.items() if self.root(name) == name]

    def rows(self, table: Table) -> Iterator[tuple[int, list[str | None]]]:
        """The lines and cells of a table's rows, in the order of its columns."""
        for copy in table.copies:
            self.file.seek(copy.place)
            places = [copy.columns.index(it.name) if it.name in copy.columns else -1 for it in table.columns]
            for self.line in range(copy.line, copy.line + copy.rows):
                cells = self.decoded(self.file.readline()).split("\t")
                if len(cells) != len(copy.columns):
                    raise Trouble(f"line {self.line}: {len(cells)} cells instead of {len(copy.columns)}")
                yield self.line, [copied_text(cells[place]) if place >= 0 else None for place in places]
