"""Rows of a file, whatever it is written in: CSV, a JSON object a line, or the line protocol of InfluxDB.

A source gives the line of each row and its cells, in the order of its `keys`. A row that can't be read is `Bad` in
place of its cells.
"""
from __future__ import annotations

import codecs
import csv
import io
import json
import re
import sys
from collections.abc import Iterator
from contextlib import contextmanager
from pathlib import Path
from typing import Any, Protocol, TextIO

from .messages import Trouble
from .values import Bad

Cells = list[str]


class Source(Protocol):
    """A file's rows. `as_read` is the text of the row that was given last, for a file of rows that were put aside;
    `head` is the text of what stands before all rows."""

    head: str

    def rows(self) -> Iterator[tuple[int, Cells | Bad]]: ...

    def as_read(self) -> str: ...

    def label(self, place: int) -> str: ...


# ---- bytes


@contextmanager
def opened(name: str, encoding: str) -> Iterator[TextIO]:
    """A file, or standard input for `-`, which stays open, as text."""
    try:
        codecs.lookup(encoding)
        file = sys.stdin.buffer if name == "-" else open(name, "rb")
    except OSError as error:
        raise Trouble(f"{name}: {error.strerror}") from None
    except LookupError:
        raise Trouble(f"--encoding {encoding}: there is no such encoding") from None
    text = io.TextIOWrapper(file, encoding=encoding, newline="")
    try:
        yield text
    finally:
        if name == "-":
            text.detach()
        else:
            text.close()


# ---- CSV


def csv_text(cells: Cells, delimiter: str) -> str:
    """A row as a line of CSV."""
    text = io.StringIO()
    csv.writer(text, delimiter=delimiter, lineterminator="\n").writerow(cells)
    return text.getvalue()


class Csv:
    """The rows of a CSV file. The names of its header, if it has one, are in `names`."""

    def __init__(self, text: TextIO, delimiter: str, has_header: bool) -> None:
        self.delimiter = delimiter
        # Blanks before a quote are none of the cell's.
        self.reader = csv.reader(text, delimiter=delimiter, strict=True, skipinitialspace=True)
        self.cells: Cells = []
        self.names: Cells | None = None
        self.head = ""
        if has_header:
            self.names = [name.strip() for name in next((cells for _, cells in self.parted() if cells), [])]
            self.head = csv_text(self.names, delimiter)

    def parted(self) -> Iterator[tuple[int, Cells]]:
        """The rows with the lines in which they begin."""
        line = self.reader.line_num + 1
        try:
            for cells in self.reader:
                if cells:
                    yield line, cells
                line = self.reader.line_num + 1
        except csv.Error as error:
            raise Trouble(f"line {line}: {error}") from None
        except UnicodeDecodeError as error:
            raise Trouble(f"line {line} or later isn't {error.encoding} (--encoding)") from None

    def rows(self) -> Iterator[tuple[int, Cells | Bad]]:
        for line, self.cells in self.parted():
            yield line, self.cells

    def as_read(self) -> str:
        return csv_text(self.cells, self.delimiter)

    def label(self, place: int) -> str:
        return f"column {place + 1}"


# ---- objects: JSON and line protocol


class Objects:
    """The rows of a file that has an object in each line, with these keys as cells. Keys are compared without case. A
    key that is missing is an empty cell; one that isn't asked for is in `others`."""

    head = ""

    def __init__(self, text: TextIO, keys: list[str]) -> None:
        self.text = text
        self.keys = [key.lower() for key in keys]
        self.wanted = set(self.keys)
        self.others: set[str] = set()
        self.line = ""

    def rows(self) -> Iterator[tuple[int, Cells | Bad]]:
        number = 0
        try:
            for number, self.line in enumerate(self.text, 1):
                if self.line.strip():
                    yield from self.row(number)
        except UnicodeDecodeError as error:
            raise Trouble(f"line {number + 1} or later isn't {error.encoding} (--encoding)") from None

    def row(self, number: int) -> Iterator[tuple[int, Cells | Bad]]:
        """The row of a line, or none."""
        try:
            pairs = self.pairs_of(self.line)
        except Bad as bad:
            yield number, bad
            return
        if pairs is not None:
            try:
                yield number, self.cells_of(pairs)
            except Bad as bad:
                yield number, bad

    def cells_of(self, pairs: list[tuple[str, str]]) -> Cells:
        """The cells of the keys."""
        found: dict[str, str] = {}
        for name, cell in pairs:
            key = name.lower()
            if key in found:
                raise Bad(f"has the key {name} twice")
            found[key] = cell
        if len(found) > len(self.wanted) or not self.wanted.issuperset(found):
            self.others |= found.keys() - self.wanted
        return [found.get(key, "") for key in self.keys]

    def pairs_of(self, line: str) -> list[tuple[str, str]] | None:
        """The keys and cells of a line; nothing if it has no row."""
        raise NotImplementedError

    def as_read(self) -> str:
        return self.line if self.line.endswith("\n") else self.line + "\n"

    def label(self, place: int) -> str:
        return f"key {self.keys[place]}"


def refuse_constant(text: str) -> str:
    """What JSON hasn't: `NaN` and the like."""
    raise Bad(f"has {text}, which is no number")


class Json(Objects):
    """The rows of newline-delimited JSON. Its numbers are taken as they are written."""

    def pairs_of(self, line: str) -> list[tuple[str, str]]:
        how: dict[str, Any] = {"parse_float": str, "parse_int": str, "parse_constant": refuse_constant}
        try:
            # Within another object there is no cell, so only the outermost pairs matter.
            pairs = json.loads(line, object_pairs_hook=Pairs, **how)
        except ValueError:
            raise Bad("is no JSON") from None
        if not isinstance(pairs, Pairs):
            raise Bad("is no JSON object")
        return [
            (name, self.cell(name, value)) for name, value in pairs if name.lower() in self.wanted or self.other(name)
        ]

    def other(self, name: str) -> bool:
        """Notes a key that isn't loaded."""
        self.others.add(name.lower())
        return False

    @staticmethod
    def cell(name: str, value: object) -> str:
        """A value as a cell."""
        if isinstance(value, str):
            return value
        if value is None or isinstance(value, bool):
            return "" if value is None else str(int(value))
        raise Bad(f"has an array or an object for {name}")


class Pairs(list[tuple[str, Any]]):
    """The keys and values of an object, so that a key that is there twice is seen."""


TAG = r"(?:\\.|[^\\,= ])+"
FIELD = rf'{TAG}=(?:"(?:\\.|[^"\\])*"|[^", ]+)'
MEASUREMENT = r"(?:\\.|[^\\, ])+"
PROTOCOL = re.compile(rf"({MEASUREMENT})((?:,{TAG}={TAG})*) +({FIELD}(?:,{FIELD})*)(?: +(-?[0-9]+))?")
EACH_TAG = re.compile(rf",({TAG})=({TAG})")
EACH_FIELD = re.compile(rf'({TAG})=("(?:\\.|[^"\\])*"|[^", ]+),?')
TRUTH = {"t": "1", "true": "1", "f": "0", "false": "0"}


def without_escapes(text: str) -> str:
    """A name or a tag as it is meant."""
    return re.sub(r"\\([, =])", r"\1", text)


def field_cell(text: str) -> str:
    """The value of a field as a cell."""
    if text.startswith('"'):
        return re.sub(r'\\(["\\])', r"\1", text[1:-1])
    if re.fullmatch(r"-?[0-9]+[iu]", text):
        return text[:-1]
    return TRUTH.get(text.lower(), text)


class LineProtocol(Objects):
    """The rows of InfluxDB's line protocol that are of one measurement: tags, fields, and the time by the key `time`.
    Lines of others are counted."""

    def __init__(self, text: TextIO, keys: list[str], measurement: str) -> None:
        super().__init__(text, keys)
        self.measurement = measurement.lower()
        self.elsewhere = 0

    def pairs_of(self, line: str) -> list[tuple[str, str]] | None:
        line = line.strip()
        if line.startswith("#"):
            return None
        found = PROTOCOL.fullmatch(line)
        if not found:
            raise Bad("is no line protocol")
        measurement, tags, fields, time = found.groups()
        if without_escapes(measurement).lower() != self.measurement:
            self.elsewhere += 1
            return None
        pairs = [(without_escapes(name), without_escapes(cell)) for name, cell in EACH_TAG.findall(tags)]
        pairs += [(without_escapes(name), field_cell(cell)) for name, cell in EACH_FIELD.findall(fields)]
        return [*pairs, ("time", time or "")]


def looks_like(name: str) -> str:
    """What a file is written in, by the end of its name."""
    endings = {".ndjson": "json", ".jsonl": "json", ".json": "json", ".lp": "influx", ".line": "influx"}
    return endings.get(Path(name).suffix.lower(), "csv")
