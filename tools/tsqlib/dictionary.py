"""What the numbers of a folder mean, as `tsq serve` shows them: texts of keys, scales of columns, the unit of times."""
from __future__ import annotations

import os
import threading
from collections.abc import Iterable
from itertools import zip_longest
from pathlib import Path

from .answers import Style
from .messages import Trouble, say
from .names import FILE, Names, Unit
from .roster import Roster
from .schema import Output, Schema
from .statements import before_comment
from .translation import Translator

PLACES = 12


class Dictionary:
    """Reads `tsctl.names` of a folder, again whenever it has changed. What the command line says goes first."""

    def __init__(self, folder: str | Path, unit: Unit | None, scales: dict[str, int]) -> None:
        self.folder = Path(folder)
        self.given_unit = unit
        self.given_scales = scales
        self.roster = Roster(folder)
        self.guard = threading.Lock()
        self.read_at: tuple[int, int] | None = None
        self.names = Names.read(self.folder)
        if unit and self.names.times and unit != self.names.times:
            raise Trouble(f"--times {unit}: {FILE} has times in {self.names.times}")

    def update(self) -> None:
        """Reads what has changed since."""
        with self.guard:
            self.roster.read()
            self.read_names()

    def read_names(self) -> None:
        """Reads the file again if it has changed."""
        try:
            found = os.stat(self.folder / FILE)
        except OSError:
            return
        if self.read_at == (found.st_mtime_ns, found.st_size):
            return
        try:
            self.names = Names.read(self.folder)
        except Trouble as trouble:
            say(f"{trouble}; its facts of before are used")
        self.read_at = found.st_mtime_ns, found.st_size

    def unit(self) -> Unit | None:
        """The unit of times, if they are dates."""
        return self.given_unit or self.names.times

    def style(self) -> Style:
        """How answers are written for other programs."""
        return Style(self.unit(), PLACES, padded=False, fractions=False, scales=self.given_scales, names=self.names)

    def in_numbers(self, raw: bytes, schema: Schema) -> bytes:
        """A line in which dates, lengths of time and texts of keys are numbers. It may end as NotSent."""
        text = raw.decode("utf-8", "surrogateescape")
        new = Translator(schema, self.names, self.unit()).translated(text)
        return raw if new == text else before_comment(new.encode("utf-8", "surrogateescape"))

    def scales(self, output: Output) -> dict[str, int]:
        """The powers of ten by which columns are divided, if they are."""
        found = {name: self.style().scale_of(name, unit) for name, unit in units_of(output)}
        return {name: power for name, power in found.items() if power}

    def texts(self, output: Output, keys: Iterable[str]) -> list[str]:
        """The keys of a line, each as its text if it has one."""
        style, units = self.style(), units_of(output)[1:]
        found = [key if key == "null" else style.text_of(unit, int(key)) for key, (_, unit) in zip(keys, units)]
        return [key if text is None else text for key, text in zip(keys, found)]


def units_of(output: Output) -> list[tuple[str, str | None]]:
    """The columns of an answer, each with the table's column whose unit it has."""
    return list(zip_longest(output.names, output.units[: len(output.names)]))
