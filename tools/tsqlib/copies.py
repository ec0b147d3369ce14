"""Private folders for copies of journals: few, for this user alone, and removed at the end.

Each one has a file that its process locks. The system frees the lock however the process ends, so the next copy that is
made removes the folders whose locks are free.
"""
from __future__ import annotations

import fcntl
import os
import shutil
import signal
import stat
import tempfile
from collections.abc import Iterator
from contextlib import contextmanager
from pathlib import Path
from types import FrameType
from typing import NoReturn

from .messages import Trouble
from .signals import interrupted

MOST_COPIES = 16
LOCK = "held"
FRONT = "copy-"
ENDS = (signal.SIGTERM, signal.SIGHUP)


def room() -> Path:
    """The folder that has this user's copies."""
    path = Path(tempfile.gettempdir()) / f"tsq-{os.getuid()}"
    path.mkdir(mode=0o700, exist_ok=True)
    found = path.lstat()
    if not stat.S_ISDIR(found.st_mode) or found.st_uid != os.getuid() or found.st_mode & 0o077:
        raise Trouble(f"{path} must be a folder of this user alone: remove it, or set TMPDIR to another place")
    return path


def locked(path: Path, how: int) -> int | None:
    """A descriptor that has the lock of a file, and None if another one has it."""
    file = os.open(path, os.O_RDWR | os.O_CREAT, 0o600)
    try:
        fcntl.flock(file, how)
    except BlockingIOError:
        os.close(file)
        return None
    return file


def remove_left(path: Path) -> int:
    """Removes the copies whose processes have ended, and gives the number of the others."""
    count = 0
    for folder in path.glob(FRONT + "*"):
        try:
            lock = locked(folder / LOCK, fcntl.LOCK_EX | fcntl.LOCK_NB)
        except FileNotFoundError:
            # Its process has removed it since it was found.
            continue
        if lock is None:
            count += 1
            continue
        shutil.rmtree(folder, ignore_errors=True)
        os.close(lock)
    return count


class Copy:
    """A private folder, which is removed at the end of the `with` statement."""

    def __init__(self) -> None:
        try:
            self.folder, self.lock = self.make()
        except OSError as error:
            raise Trouble(f"no copy of the journal in {tempfile.gettempdir()}: {error.strerror}") from None

    @staticmethod
    def make() -> tuple[Path, int]:
        """A new folder, and the lock on it. No other process makes one meanwhile, or removes another process's."""
        path = room()
        guard = locked(path / "lock", fcntl.LOCK_EX)
        assert guard is not None
        try:
            if remove_left(path) >= MOST_COPIES:
                raise Trouble(f"{path} has {MOST_COPIES} copies of journals already, and their processes run")
            folder = Path(tempfile.mkdtemp(prefix=FRONT, dir=path))
            lock = locked(folder / LOCK, fcntl.LOCK_EX)
            assert lock is not None
            return folder, lock
        finally:
            os.close(guard)

    def __enter__(self) -> Copy:
        return self

    def __exit__(self, *_: object) -> None:
        self.remove()

    def remove(self) -> None:
        """Removes the folder, once."""
        if self.lock >= 0:
            shutil.rmtree(self.folder, ignore_errors=True)
            os.close(self.lock)
            self.lock = -1


def leave(number: int, frame: FrameType | None) -> NoReturn:
    """Ends the program as a signal would, after the clean-up."""
    raise SystemExit(128 + number)


@contextmanager
def cleaned_up() -> Iterator[None]:
    """Lets a signal that ends the program remove its copies first, and at once. It is for the main thread."""
    olds = {number: signal.getsignal(number) for number in ENDS}
    taken = [number for number, old in olds.items() if old is signal.SIG_DFL]
    for number in taken:
        signal.signal(number, leave)
    try:
        with interrupted():
            yield
    finally:
        for number in taken:
            signal.signal(number, signal.SIG_DFL)
