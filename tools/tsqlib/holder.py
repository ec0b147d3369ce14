"""Tells which process holds the journal of a folder, by what the system says of locks."""
from __future__ import annotations

import os
from pathlib import Path

from .messages import Trouble

LOCKS = Path("/proc/locks")
PROCESSES = Path("/proc")


def held_by(folder: str | Path) -> int | None:
    """The process that holds the journal of a folder, and None if there is none or the system doesn't tell.

    It only looks. Trying the lock would get in the way of a run that starts at that moment.
    """
    try:
        journal = os.stat(Path(folder) / "tsctl.journal")
        lines = LOCKS.read_text().splitlines()
    except OSError:
        return None
    found = [lock for lock in map(lock_of, lines) if lock and lock[1] == journal.st_ino]
    return next((process for process, _ in found if may_have(process, journal)), None)


def require_free(folder: str | Path, way_on: str) -> None:
    """Refuses a folder that another process holds, and says what to do. A run there would end with a disk fault."""
    if (holder := held_by(folder)) is not None:
        raise Trouble(f"process {holder} holds {folder}: {way_on}")


def lock_of(line: str) -> tuple[int, int] | None:
    """The process and the inode of a line of /proc/locks, if it is of a lock that is held as tsctl holds it."""
    words = line.split()
    if len(words) < 6 or words[1] != "FLOCK" or not words[4].isdecimal():
        return None
    inode = words[5].rsplit(":", 1)[-1]
    return (int(words[4]), int(inode)) if inode.isdecimal() else None


def may_have(process: int, journal: os.stat_result) -> bool:
    """Whether a process has the file open; also if that isn't shown to this user. Inodes of two disks may be equal."""
    try:
        opened = list((PROCESSES / str(process) / "fd").iterdir())
    except PermissionError:
        return True
    except OSError:
        return False
    return any(is_same(link, journal) for link in opened)


def is_same(link: Path, journal: os.stat_result) -> bool:
    """Whether an open file is the journal."""
    try:
        return os.path.samestat(os.stat(link), journal)
    except OSError:
        return False
