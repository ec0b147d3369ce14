"""Passes over the frames of a journal that may grow meanwhile, by a few bytes of each."""
from __future__ import annotations

import os
from collections.abc import Iterator
from typing import NamedTuple

from .journal import BASE
from .messages import Trouble

# The place of the first commit byte.
FIRST = 8
WINDOW = 1 << 16


class Reader:
    """Reads a file at places that rise, with few calls."""

    def __init__(self, file: int) -> None:
        self.file = file
        self.start = 0
        self.held = b""

    def at(self, place: int, size: int) -> bytes:
        """The bytes at a place; fewer if the file ends there."""
        if not self.start <= place <= place + size <= self.start + len(self.held):
            self.start, self.held = place, os.pread(self.file, max(size, WINDOW), place)
        return self.held[place - self.start : place - self.start + size]


class Frame(NamedTuple):
    """A frame: the places of its commit byte and of the next one, and the first byte of its payload."""

    gate: int
    end: int
    kind: bytes

    def size(self) -> int:
        """How many bytes its payload has."""
        return self.end - self.gate - 5


def frames(file: int, start: int) -> Iterator[Frame]:
    """The frames from a commit byte on."""
    reader, gate = Reader(file), start
    while (head := reader.at(gate, 6))[:1] == b"\1":
        end = gate + 5 + int.from_bytes(head[1:5], "little")
        if not reader.at(end, 1):
            raise Trouble(f"the journal is damaged at {gate}")
        yield Frame(gate, end, head[5:] if end > gate + 5 else b"")
        gate = end


def payload_of(file: int, frame: Frame, most: int) -> bytes:
    """The payload of a frame, up to so many bytes."""
    return os.pread(file, min(frame.size(), most), frame.gate + 5)


class Walk(NamedTuple):
    """Frames in order: the commit byte that ends them, how many there are, and the commit byte of the last base among
    them with the number of frames after it."""

    end: int
    frames: int
    base: int | None
    after: int


def walk(file: int, start: int) -> Walk:
    """Passes over the frames from a commit byte on."""
    found = Walk(start, 0, None, 0)
    for frame in frames(file, start):
        is_base = frame.kind == BASE
        base, after = (frame.gate, 0) if is_base else (found.base, found.after + 1)
        found = Walk(frame.end, found.frames + 1, base, after)
    return found
