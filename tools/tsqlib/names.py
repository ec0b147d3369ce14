"""What a folder remembers about its numbers: the texts of keys, the scales of columns, and the unit of times.

The file `tsctl.names` stands beside the journal. Each line is one fact, and none is changed or removed:

    tsctl.names 1
    times s
    scale celsius 2
    text device 1 "pump-a"

A text is a JSON string, so a fact never goes over its line. Facts are on the disk before any row that uses them is
sent. So a crash may leave facts that no row uses, but no row without its facts.
"""
import fcntl
import json
import os
import re
from collections.abc import Iterable, Iterator, Mapping
from contextlib import contextmanager
from pathlib import Path
from typing import BinaryIO, Literal, cast, get_args

from .messages import Trouble

Unit = Literal["s", "ms", "us"]
FILE = "tsctl.names"
HEADER = b"tsctl.names 1\n"
LEAST, MOST = -(2**63), 2**63 - 1
MOST_SCALE = 30
# What to do if rows need another scale than the one that a folder remembers.
SCALE_STAYS = "a scale stays, so round the values, or use another name or folder"
NAME = r"[a-z_][a-z0-9_]{0,62}"
FACT = re.compile(rf"times (s|ms|us)|scale ({NAME}) ([0-9]{{1,2}})|text ({NAME}) (-?[0-9]{{1,19}}) (\".*\")")


class Bad(Exception):
    """A line that contradicts those before it, or that isn't a fact."""


class Names:
    """The texts, the scales and the unit of times of a folder."""

    def __init__(self, path: Path) -> None:
        self.path = path
        self.times: Unit | None = None
        self.scales: dict[str, int] = {}
        self._texts: dict[str, dict[int, str]] = {}
        self._numbers: dict[str, dict[str, int]] = {}
        self._size = 0
        self._lines = 0

    @classmethod
    def read(cls, folder: Path) -> "Names":
        """Those of a folder; without a file, empty ones. A damaged file ends as Trouble."""
        names = cls(Path(folder) / FILE)
        try:
            with open(names.path, "rb") as file:
                names._learn(file.read())
        except FileNotFoundError:
            pass
        except OSError as error:
            raise Trouble(f"{names.path}: {error.strerror}") from None
        return names

    def text_of(self, column: str, number: int) -> str | None:
        """The text of a number in a column."""
        return self._texts.get(column, {}).get(number)

    def number_of(self, column: str, text: str) -> int | None:
        """The number of a text in a column; that of the text without blanks around it if only this one has a number."""
        numbers = self._numbers.get(column, {})
        return numbers.get(text, numbers.get(text.strip()))

    def has_texts(self, column: str) -> bool:
        """Whether a column has texts."""
        return column in self._texts

    def texts_of(self, column: str) -> Mapping[int, str]:
        """All texts of a column by their numbers."""
        return self._texts.get(column, {})

    def scale_of(self, column: str) -> int:
        """How often a column's values were multiplied by ten; 0 if that isn't remembered."""
        return self.scales.get(column, 0)

    def remember(
        self, texts: Iterable[tuple[str, str]] = (), scales: Mapping[str, int] | None = None, times: Unit | None = None
    ) -> None:
        """Writes new facts to the disk: pairs of a column and a text, which get the next free numbers, scales, and the
        unit of times. A fact that contradicts a known one ends as Trouble, and nothing is written."""
        texts = list(texts)
        with self._locked() as file:
            lines = b"".join(self._new_lines(texts, scales or {}, times))
            if lines:
                self._append(file, lines)

    def would_contradict(self, scales: Mapping[str, int], times: Unit | None) -> str | None:
        """Why these scales and this unit can't be remembered; nothing if they can."""
        for column, scale in scales.items():
            if self.scales.get(column, scale) != scale:
                return f"{FILE} has scale {self.scales[column]} for {column}, not {scale}: {SCALE_STAYS}"
        if times and self.times and times != self.times:
            return f"{FILE} has times in {self.times}, not {times}"
        return None

    # ---- the file

    @contextmanager
    def _locked(self) -> Iterator[BinaryIO]:
        """The file, held by this process only, once its new lines were read. A last line that is cut off is removed."""
        try:
            with open(os.open(self.path, os.O_RDWR | os.O_CREAT, 0o666), "r+b") as file:
                fcntl.flock(file, fcntl.LOCK_EX)
                file.seek(self._size)
                self._learn(file.read())
                file.truncate(self._size)
                file.seek(self._size)
                yield file
        except OSError as error:
            raise Trouble(f"{self.path}: {error.strerror}") from None

    def _append(self, file: BinaryIO, lines: bytes) -> None:
        """Writes lines to the disk, and learns them."""
        is_new = self._size == 0
        lines = HEADER * is_new + lines
        file.write(lines)
        file.flush()
        os.fsync(file.fileno())
        if is_new:
            sync_folder(self.path.parent)
        self._learn(lines)

    def _new_lines(
        self, texts: list[tuple[str, str]], scales: Mapping[str, int], times: Unit | None
    ) -> Iterator[bytes]:
        """The lines of those facts that aren't known."""
        if contradiction := self.would_contradict(scales, times):
            raise Trouble(contradiction)
        if times and not self.times:
            yield f"times {times}\n".encode()
        for column, scale in scales.items():
            if column not in self.scales:
                yield f"scale {column} {scale}\n".encode()
        free: dict[str, int] = {}
        for column, text in dict.fromkeys(texts):
            if text not in self._numbers.get(column, {}):
                number = free.get(column) or max(self.texts_of(column), default=0) + 1
                free[column] = number + 1
                yield f"text {column} {number} {json.dumps(text, ensure_ascii=False)}\n".encode()

    def _learn(self, content: bytes) -> None:
        """Takes the whole lines of bytes that follow those already read."""
        end = content.rfind(b"\n") + 1
        for line in content[:end].split(b"\n")[:-1]:
            self._lines += 1
            try:
                self._learn_line(line)
            except (Bad, ValueError):
                raise Trouble(f"{self.path}: line {self._lines} is damaged") from None
        self._size += end

    def _learn_line(self, line: bytes) -> None:
        """Takes one line."""
        if self._lines == 1:
            if line + b"\n" != HEADER:
                raise Bad
            return
        found = FACT.fullmatch(line.decode())
        if not found:
            raise Bad
        times, scaled, scale, column, number, text = found.groups()
        if times:
            self._learn_times(times)
        elif scaled:
            self._learn_scale(scaled, int(scale))
        else:
            self._learn_text(column, int(number), json.loads(text))

    def _learn_times(self, times: str) -> None:
        if self.times or times not in get_args(Unit):
            raise Bad
        self.times = cast(Unit, times)

    def _learn_scale(self, column: str, scale: int) -> None:
        if column in self.scales or scale > MOST_SCALE:
            raise Bad
        self.scales[column] = scale

    def _learn_text(self, column: str, number: int, text: str) -> None:
        """Takes a text. No two numbers of a column have one text, and no number has two."""
        texts, numbers = self._texts.setdefault(column, {}), self._numbers.setdefault(column, {})
        if number in texts or text in numbers or not LEAST <= number <= MOST:
            raise Bad
        texts[number] = text
        numbers[text] = number


def sync_folder(folder: Path) -> None:
    """Brings the names of a folder's files to the disk."""
    descriptor = os.open(folder, os.O_RDONLY)
    try:
        os.fsync(descriptor)
    finally:
        os.close(descriptor)
