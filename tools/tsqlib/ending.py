"""What is after a journal's end: nothing but zeros, unless a run was ended in the middle or a byte was changed."""
from __future__ import annotations

import os
from typing import NamedTuple

from .frames import walk
from .messages import Trouble

PIECE = 1 << 20
OPEN, CLOSED = b"\x01", b"\x00"
LENGTH = 4


class Ending(NamedTuple):
    """The commit byte that ends a journal: its place and value; from where to where bytes after it aren't zero; and how
    many frames that count would follow if it were 1."""

    place: int
    value: int
    first: int | None
    last: int | None
    frames: int

    def wrong(self) -> str | None:
        """What can't be by any write of tsctl, in words."""
        if self.frames:
            events = f"{self.frames} events follow that were committed"
            return f"the commit byte at {self.place} is {self.value}, and {events}: it was changed from 1"
        if self.value != 0:
            return f"the commit byte at {self.place} is {self.value}, and tsctl writes 0 or 1"
        return None

    def remark(self) -> str | None:
        """What may be by a run that was ended in the middle, in words."""
        if self.first is None:
            return None
        why = "a run was ended while it wrote an event, or the commit byte was changed"
        return f"bytes {self.first}..{self.last} after the end at {self.place} aren't zero: {why}"


def committed_after(file: int, place: int, size: int) -> int:
    """How many frames would count if the commit byte at a place were 1. They are told from a frame that was never
    committed by another commit byte after it: a run writes no second frame before the first one counts."""
    length = int.from_bytes(os.pread(file, LENGTH, place + 1), "little")
    after = place + 1 + LENGTH + length
    if after >= size or os.pread(file, 1, after) != OPEN:
        return 0
    try:
        return 1 + walk(file, after).frames
    except Trouble:
        return 1


def not_zero(file: int, start: int) -> tuple[int | None, int | None]:
    """The places of the first and the last byte from a place on that isn't zero, the last one plus 1."""
    first = last = None
    while piece := os.pread(file, PIECE, start):
        if stripped := piece.strip(CLOSED):
            begin = start + len(piece) - len(piece.lstrip(CLOSED))
            first = begin if first is None else first
            last = begin + len(stripped)
        start += len(piece)
    return first, last


def ending_of(file: int, end: int) -> Ending:
    """What is at the end of a journal, and after it."""
    value = os.pread(file, 1, end)
    first, last = not_zero(file, end + 1)
    frames = committed_after(file, end, os.fstat(file).st_size) if first is not None else 0
    return Ending(end, value[0] if value else 0, first, last, frames)
