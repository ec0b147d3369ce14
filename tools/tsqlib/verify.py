"""`tsq verify`: whether the bytes of a journal, or of its copy, are as they were, and what is after its end."""
from __future__ import annotations

import argparse
import os
from collections.abc import Iterator
from pathlib import Path
from typing import NamedTuple

from .backup import SUMS, WRONG, beside
from .ending import ending_of
from .follower import JOURNAL
from .frames import FIRST, walk
from .holder import held_by
from .journal import MAGIC
from .messages import Trouble
from .options import Commands
from .sums import Sums, changed, digest, read_sums


WITHOUT_LOAD = "restore without it, and load with --once, which leaves out rows that are there"


class Found(NamedTuple):
    """A line of what was found, and what to do about it if it is wrong."""

    text: str
    remedy: str | None = None


class Places(NamedTuple):
    """A journal and its sums, and the folder that it is in if it isn't a copy."""

    journal: Path
    sums: Path
    folder: Path | None


def add_command(commands: Commands) -> None:
    """`tsq verify`."""
    parser = commands.add_parser("verify", help="compare a copy, or a folder's journal, with its sums")
    parser.add_argument("file", metavar="FILE", help="a copy that `tsq backup` made, or a folder with a journal")
    parser.add_argument("--sums", metavar="FILE", help="the sums; FILE.sums, or those in the folder, without it")
    parser.set_defaults(call=verify)


def places_of(arguments: argparse.Namespace) -> Places:
    """The files that are compared."""
    file = Path(arguments.file)
    sums = Path(arguments.sums) if arguments.sums else None
    if file.is_dir():
        return Places(file / JOURNAL, sums or file / SUMS, file)
    return Places(file, sums or beside(file, "sums"), None)


def compared(file: int, sums: Sums, is_copy: bool) -> Iterator[Found]:
    """How the bytes are, compared with their sums."""
    remedy = "put a copy back that `tsq verify` finds whole, or read what is before the change with `tsctl log`"
    size = os.fstat(file).st_size
    if size <= sums.size:
        yield Found(f"{size} bytes are there, and {sums.size + 1} were at @{sums.position}", remedy)
    if is_copy and size > sums.size + 1:
        yield Found(f"{size - sums.size - 1} bytes are after the end of the copy", remedy)
    if is_copy and size > sums.size and os.pread(file, 1, sums.size) != b"\0":
        yield Found(f"byte {sums.size}, which ends the copy, has changed since @{sums.position}", remedy)
    ranges = changed(file, sums)
    for start, end in ranges:
        yield Found(f"bytes {start}..{end} have changed since @{sums.position}", remedy)
    if not ranges:
        yield Found(f"sums: all bytes before {sums.size} are as they were at @{sums.position}")


def end_found(file: int, folder: Path | None) -> Iterator[Found]:
    """What is at the journal's end and after it."""
    size = os.fstat(file).st_size
    if size > FIRST + 1 and os.pread(file, len(MAGIC), 0) != MAGIC:
        yield Found("journal damaged at 0", "put a copy back")
        return
    try:
        end = walk(file, FIRST).end if size > FIRST + 1 else FIRST
    except Trouble as trouble:
        yield Found(str(trouble), "put a copy back, or see \"A journal that is damaged\" in docs/RECIPES.md")
        return
    if folder and (holder := held_by(folder)) is not None:
        yield Found(f"end: at {end}; process {holder} writes, so what is after it isn't checked")
        return
    ending = ending_of(file, end)
    wrong, remark = ending.wrong(), ending.remark()
    if wrong:
        way = f"printf '\\001' | dd of=COPY bs=1 seek={end} conv=notrunc status=none"
        yield Found(wrong, "run nothing there, since the next run writes over what follows; copy the file"
                    + (f", and write the byte back in the copy: {way}" if ending.frames else ""))  # fmt: skip
    elif remark:
        yield Found(f"end: {remark}")
    else:
        yield Found(f"end: at {end}, and nothing but zeros after it")


def beside_found(copy: Path, word: str, sum_of: str | None, remedy: str) -> Iterator[Found]:
    """How a file beside a copy is. Those beside a journal go on growing, so they aren't compared."""
    if sum_of is None:
        return
    path = beside(copy, word)
    try:
        is_same = digest(path.read_bytes()) == sum_of
    except OSError as error:
        yield Found(f"{path}: {error.strerror}", remedy)
        return
    if is_same:
        yield Found(f"{word}: {path} is as it was")
    else:
        yield Found(f"{path} has changed", remedy)


def all_found(places: Places) -> Iterator[Found]:
    """Everything that is found."""
    sums = read_sums(places.sums)
    try:
        file = os.open(places.journal, os.O_RDONLY)
    except OSError as error:
        raise Trouble(f"{places.journal}: {error.strerror}") from None
    try:
        if sums is None:
            yield Found(f"sums: without {places.sums}, which `tsq backup` writes, changed bytes can't be detected")
        else:
            yield from compared(file, sums, places.folder is None)
            if places.folder is None:
                yield from beside_found(places.journal, "names", sums.names, "take the dictionary of another copy")
                yield from beside_found(places.journal, "load", sums.load, WITHOUT_LOAD)
        yield from end_found(file, places.folder)
    finally:
        os.close(file)


def verify(arguments: argparse.Namespace) -> int:
    """Prints what is found, and gives 1 if something is wrong."""
    status = 0
    for found in all_found(places_of(arguments)):
        if found.remedy is None:
            print(found.text)
            continue
        status = WRONG
        print(f"WRONG: {found.text}")
        print(f"  do: {found.remedy}")
    return status
