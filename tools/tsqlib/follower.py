"""Follows the journal of a folder by a copy, so that questions are answered while another process writes.

A run holds its folder, but any program may read the file: each byte before the last commit byte stays as it is. So a
follower copies the frames that count, lets tsctl put an image of the data into the copy, and appends the frames that
come. `tsctl run` on the copy begins with the image, and the writer notices nothing.
"""
from __future__ import annotations

import os
import shutil
import subprocess
from collections.abc import Iterator
from contextlib import contextmanager
from itertools import islice
from pathlib import Path
from typing import Any, NamedTuple

from . import programs
from .copies import Copy, cleaned_up
from .frames import FIRST, Walk, walk
from .holder import held_by as held_by
from .journal import MAGIC, VERSION_2
from .messages import Trouble, say
from .statements import SESSION, TOKEN, lines_of

JOURNAL, NAMES = "tsctl.journal", "tsctl.names"
PART = 1 << 20
# So many bytes before the end tell whether the file is still the one that was read.
SEAM = 4096
# An image is made for a copy that is longer than this, and again once more was appended than the image has.
ENOUGH = 1 << 18
READS = (["select", "*"], ["select", "time_bucket"], ["select", "calendar_bucket"])
READ_BLOCK = (["begin", "read", "only"], ["commit"], ["rollback"])


# ---- questions


def asks(text: str) -> bool:
    """Whether a statement without its session only asks, or bounds a read block: its first words tell."""
    words = [found[0].lower() for found in islice(TOKEN.finditer(text), 5)]
    words = words[:-1] if words[-1:] == [";"] else words
    return not words or words[:2] in READS or words in READ_BLOCK


def asks_only(script: bytes) -> bool:
    """Whether all statements of a script only ask."""
    texts = [SESSION.sub("", line.text, count=1) if line.session else line.text for line in lines_of(script)]
    return all(map(asks, texts))


# ---- bytes


class Moved(Exception):
    """The journal isn't the one that was read before: the follower starts over."""


def copy_bytes(source: int, start: int, end: int, target: int, place: int) -> None:
    """Copies the bytes from one place on and before another one to a place of another file."""
    while start < end:
        part = os.pread(source, min(PART, end - start), start)
        if not part:
            raise Moved
        write(target, part, place)
        start, place = start + len(part), place + len(part)


def write(file: int, part: bytes, place: int) -> None:
    """Writes all of the bytes at a place."""
    while part:
        done = os.pwrite(file, part, place)
        part, place = part[done:], place + done


# ---- the journal that is followed


class Source:
    """The journal of a folder, up to the commit byte that ended it when it was read last."""

    def __init__(self, folder: str | Path) -> None:
        self.path = Path(folder) / JOURNAL
        try:
            self.file = os.open(self.path, os.O_RDONLY)
        except FileNotFoundError:
            raise Trouble(f"{os.path.abspath(folder)} has no journal") from None
        except OSError as error:
            raise Trouble(f"{self.path}: {error.strerror}") from None
        self.head = os.pread(self.file, FIRST, 0)
        self.end = FIRST
        self.seam = b""
        if self.length() > FIRST + 1 and self.head[:7] != MAGIC:
            os.close(self.file)
            raise Trouble("the journal is damaged at 0")

    def length(self) -> int:
        """How many bytes the file has now."""
        return os.fstat(self.file).st_size

    def check(self) -> None:
        """That this is still the file of that name, and has what was read of it."""
        try:
            is_same = os.path.samestat(os.stat(self.path), os.fstat(self.file))
        except OSError:
            is_same = False
        seam = os.pread(self.file, len(self.seam), self.end - len(self.seam))
        if not is_same or os.pread(self.file, FIRST, 0) != self.head or seam != self.seam:
            raise Moved

    def new(self) -> Walk:
        """The frames that came since."""
        return walk(self.file, self.end) if self.length() > FIRST + 1 else Walk(FIRST, 0, None, 0)

    def take(self, end: int) -> None:
        """Takes all up to this commit byte as read."""
        self.end = end
        size = min(SEAM, end - FIRST)
        self.seam = os.pread(self.file, size, end - size)

    def close(self) -> None:
        os.close(self.file)


# ---- the copy


class Follower:
    """A copy of a folder's journal, in a private folder of its own.

    No run may be at work in `folder` while a method is called. What runs there asks only.
    """

    def __init__(self, folder: str | Path, has_image: bool = True) -> None:
        self.origin = Path(folder)
        self.has_image = has_image
        self.position = 0
        self.size = 0
        self.image_size = 0
        self.last_written = 0.0
        self.source = Source(folder)
        try:
            self.copy = Copy()
        except BaseException:
            self.source.close()
            raise
        self.folder = self.copy.folder
        try:
            self.begin()
        except BaseException:
            self.close()
            raise

    def __enter__(self) -> Follower:
        return self

    def __exit__(self, *_: object) -> None:
        self.close()

    def close(self) -> None:
        """Removes the copy."""
        self.source.close()
        self.copy.remove()

    def written(self) -> float:
        """When the journal was last written, in seconds since 1970; any thread may ask."""
        try:
            self.last_written = os.stat(self.source.path).st_mtime
        except OSError:
            pass
        return self.last_written

    def has_news(self) -> bool:
        """Whether the next step would take anything. A run may be at work in the copy meanwhile."""
        try:
            self.source.check()
        except Moved:
            return True
        return os.pread(self.source.file, 1, self.source.end) == b"\1" and self.source.length() > FIRST + 1

    def step(self) -> bool:
        """Takes what is new, and gives whether anything was."""
        try:
            self.source.check()
            new = self.source.new()
            if not new.frames:
                return False
            if new.base is not None:
                raise Moved
            self.append(new)
        except Moved:
            self.start_over()
        return True

    def start_over(self) -> None:
        """Copies the journal again, since it was replaced, got shorter, or has an image of its own."""
        old, self.source = self.source, Source(self.origin)
        old.close()
        self.begin()

    def begin(self) -> None:
        """Copies what counts of the journal: from its last base on, or all of it."""
        new = self.source.new()
        has_base = self.source.head[7:8] == VERSION_2 and new.base is not None
        first = new.base if has_base and new.base is not None else FIRST
        head, size = MAGIC + (VERSION_2 if has_base else b"1"), FIRST + new.end - first
        with self.opened(os.O_RDWR | os.O_CREAT | os.O_TRUNC, "new") as file:
            write(file, head, 0)
            try:
                copy_bytes(self.source.file, first, new.end, file, FIRST)
                write(file, b"\0", size)
                is_whole = walk(file, FIRST).end == size
            except Moved:
                is_whole = False
            position = position_of(file, has_base) + (new.after if has_base else new.frames)
        if not is_whole:
            raise Trouble("the journal was replaced while it was read: try again")
        os.replace(self.folder / "new", self.folder / JOURNAL)
        self.size, self.image_size, self.position = size, 0, position
        self.finish(new.end)

    def append(self, new: Walk) -> None:
        """Appends the frames that came. The first commit byte is written last, so that no part of them counts."""
        start, grown = self.source.end, new.end - self.source.end
        with self.opened(os.O_RDWR) as file:
            copy_bytes(self.source.file, start + 1, new.end, file, self.size + 1)
            write(file, b"\0", self.size + grown)
            write(file, b"\1", self.size)
            if walk(file, self.size)[:2] != (self.size + grown, new.frames):
                raise Moved
        self.size += grown
        self.position += new.frames
        self.finish(new.end)

    def finish(self, end: int) -> None:
        """Takes what was copied as read, and makes an image where that saves time at each start."""
        self.source.take(end)
        copy_names(self.origin, self.folder)
        if self.has_image and self.size - self.image_size > max(ENOUGH, self.image_size):
            self.make_image()

    def make_image(self) -> None:
        """Lets tsctl put an image into the copy, and leaves out what is before it. Without one, such as one that
        would be too long or has no room, a run on the copy starts more slowly and answers all the same."""
        if not self.is_imaged():
            self.has_image = False
            (self.folder / "new").unlink(missing_ok=True)

    def is_imaged(self) -> bool:
        """Whether an image could be made."""
        quiet: dict[str, Any] = dict.fromkeys(("stdin", "stdout", "stderr"), subprocess.DEVNULL)
        try:
            done = subprocess.run([programs.tsctl(), "checkpoint"], cwd=self.folder, **quiet)
        except OSError as error:
            raise Trouble(": ".join(filter(None, [error.filename, error.strerror]))) from None
        if done.returncode != 0:
            return False
        try:
            with self.opened(os.O_RDONLY) as old:
                found = walk(old, FIRST)
                assert found.base is not None
                with self.opened(os.O_RDWR | os.O_CREAT | os.O_TRUNC, "new") as new:
                    write(new, MAGIC + VERSION_2, 0)
                    copy_bytes(old, found.base, found.end + 1, new, FIRST)
        except Trouble:
            return False
        os.replace(self.folder / "new", self.folder / JOURNAL)
        self.size = self.image_size = FIRST + found.end - found.base
        return True

    @contextmanager
    def opened(self, how: int, name: str = JOURNAL) -> Iterator[int]:
        """A file of the copy. A full disk ends as Trouble."""
        try:
            file = os.open(self.folder / name, how, 0o600)
            try:
                yield file
            finally:
                os.close(file)
        except OSError as error:
            raise Trouble(f"the copy of the journal in {self.folder}: {error.strerror}") from None


def position_of(file: int, has_base: bool) -> int:
    """The position at which a copy begins: that of its base."""
    return int.from_bytes(os.pread(file, 8, FIRST + 6), "little") if has_base else 0


def copy_names(origin: Path, folder: Path) -> None:
    """Copies the dictionary that may be beside a journal."""
    try:
        shutil.copyfile(origin / NAMES, folder / NAMES)
    except OSError:
        (folder / NAMES).unlink(missing_ok=True)


# ---- for commands


class Snapshot(NamedTuple):
    """A folder with a copy of a journal, and the position of the copy."""

    folder: Path
    position: int


@contextmanager
def open_snapshot(folder: str | Path) -> Iterator[Snapshot]:
    """A copy of the journal as it is now, which is removed at the end. It is for the main thread."""
    with cleaned_up(), Follower(folder, has_image=False) as follower:
        yield Snapshot(follower.folder, follower.position)


@contextmanager
def folder_to_ask(folder: str | Path | None, script: bytes, is_wanted: bool = False) -> Iterator[Path]:
    """The folder in which a script runs: a copy if one is wanted, or if the script only asks while another process
    holds the folder. A line on standard error says so."""
    here = Path(folder or ".")
    if is_wanted and not asks_only(script):
        raise Trouble("--snapshot is for questions: a statement would change the copy alone")
    holder = held_by(here) if is_wanted or asks_only(script) else None
    if not is_wanted and holder is None:
        yield here
        return
    with open_snapshot(here) as snapshot:
        said = f"process {holder} holds {here}: " if holder else ""
        say(f"{said}answers are those of a copy at @{snapshot.position}")
        yield snapshot.folder
