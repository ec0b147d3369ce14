"""`tsq backup`: a copy of a folder's journal as it is at a position, with sums by which changes of it are noticed."""
from __future__ import annotations

import argparse
import os
import tempfile
from pathlib import Path

from . import programs
from .ending import ending_of
from .follower import JOURNAL, NAMES, Moved, Source, copy_bytes, write
from .holder import held_by
from .messages import Trouble, say
from .options import Commands
from .resume import content_at
from .sums import Sums, sums_of

SUMS = "tsctl.sums"
WRONG = 1
MOST_TRIES = 5
POSITION = "HISTORY @"


def add_command(commands: Commands) -> None:
    """`tsq backup`."""
    parser = commands.add_parser("backup", help="copy a folder's journal, also while another process writes")
    parser.add_argument("folder", metavar="FOLDER")
    parser.add_argument("file", metavar="FILE", help="the copy; FILE.sums, .names and .load come beside it")
    parser.set_defaults(call=backup)


def beside(file: Path, end: str) -> Path:
    """A file beside a copy."""
    return file.with_name(f"{file.name}.{end}")


def copy_journal(folder: Path, target: int) -> int:
    """Copies the frames that count, and gives the place of the commit byte that ends the copy."""
    for _ in range(MOST_TRIES):
        source = Source(folder)
        try:
            end = source.new().end
            os.ftruncate(target, 0)
            copy_bytes(source.file, 0, end, target, 0)
            # A checkpoint meanwhile has changed the version: then it is copied once more.
            source.check()
            write(target, b"\0", end)
            os.fsync(target)
            return end
        except Moved:
            pass
        finally:
            source.close()
    raise Trouble(f"the journal of {folder} was replaced, or is no whole journal")


def checked_position(file: Path) -> int:
    """The position of a copy, by `tsctl check`."""
    with tempfile.TemporaryDirectory(prefix="tsq-check-") as folder:
        os.symlink(file.resolve(), Path(folder) / JOURNAL)
        status, output = programs.call(["check"], b"", folder)
    first = output.decode("ascii", "replace").partition("\n")[0]
    if status != 0 or not first.startswith(POSITION):
        raise Trouble(f"`tsctl check` of the copy ended with {status}")
    return int(first.removeprefix(POSITION))


def names_of(folder: Path) -> bytes | None:
    """The dictionary beside a journal. It is read after the journal, so it has all that the copy uses."""
    try:
        content = (folder / NAMES).read_bytes()
    except FileNotFoundError:
        return None
    # A last line that is being written isn't whole.
    return content[: content.rfind(b"\n") + 1]


def keep(path: Path, content: bytes) -> None:
    """Writes a file to the disk, whole or not at all."""
    new = path.with_name(f".{path.name}.{os.getpid()}")
    try:
        with open(new, "wb") as file:
            file.write(content)
            file.flush()
            os.fsync(file.fileno())
        os.replace(new, path)
    finally:
        new.unlink(missing_ok=True)


def keep_sums(folder: Path, sums: Sums) -> None:
    """Writes the sums beside the journal, so that `tsctl why` can compare it, if the folder can be written."""
    try:
        keep(folder / SUMS, sums.text().encode())
    except OSError as error:
        say(f"{folder / SUMS}: {error.strerror}, so `tsctl why` can't compare the journal with the copy")


def copied(folder: Path, file: Path, new: Path) -> Sums:
    """Copies the journal into a new file, and what belongs to it beside the copy's final name."""
    target = os.open(new, os.O_RDWR | os.O_CREAT | os.O_EXCL, 0o666)
    try:
        end = copy_journal(folder, target)
        position = checked_position(new)
        names = names_of(folder)
        load = content_at(folder, position)
        sums = sums_of(target, end, position, names, load)
    finally:
        os.close(target)
    for word, content in (("names", names), ("load", load)):
        if content is not None:
            keep(beside(file, word), content)
    keep(beside(file, "sums"), sums.text().encode())
    os.rename(new, file)
    return sums


def tell_ending(folder: Path, end: int) -> int:
    """Warns of events after the journal's end, which aren't in the copy; gives the exit status."""
    source = Source(folder)
    try:
        wrong = ending_of(source.file, end).wrong() if os.pread(source.file, 1, end) != b"\1" else None
    finally:
        source.close()
    if wrong is None or held_by(folder) is not None:
        return 0
    say(f"WRONG: {wrong}")
    say("the copy ends there too: don't run anything in the folder, and see `tsq verify`")
    return WRONG


def backup(arguments: argparse.Namespace) -> int:
    """Copies a journal, checks the copy, and gives it its name."""
    folder, file = Path(arguments.folder), Path(arguments.file)
    for path in (file, *(beside(file, word) for word in ("sums", "names", "load"))):
        if path.exists():
            raise Trouble(f"{path} is there already: a copy takes a name of its own")
    new = file.with_name(f".{file.name}.{os.getpid()}")
    try:
        sums = copied(folder, file, new)
    except OSError as error:
        raise Trouble(f"{error.filename or file}: {error.strerror}") from None
    finally:
        new.unlink(missing_ok=True)
    keep_sums(folder, sums)
    print(f"{file}: @{sums.position}, {sums.size + 1} bytes, checked by tsctl check")
    print(beside(file, "sums"))
    for word, sum_of in (("names", sums.names), ("load", sums.load)):
        if sum_of:
            print(beside(file, word))
    return tell_ending(folder, sums.size)
