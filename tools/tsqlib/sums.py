"""Sums of a journal's bytes, by which a changed byte is noticed: a text file with a SHA-256 for each 64 KiB.

    tsctl.sums 1
    position 14
    version 1
    bytes 141000
    block 0 9f86d081...
    block 65536 60303ae2...
    names 2c26b46b...
    load fcde2b2e...

`bytes` is the place of the commit byte that ended the journal. What is before it stays as it is, so the sums hold of a
journal that has grown as well as of its copy. But a checkpoint raises the version, which is byte 7.
"""
from __future__ import annotations

import hashlib
import os
import re
from collections.abc import Iterator
from dataclasses import dataclass
from pathlib import Path

from .messages import Trouble

BLOCK = 1 << 16
VERSION_PLACE = 7
VERSION_2 = "2"
HEADER = "tsctl.sums 1"
LINE = re.compile(
    r"(position|bytes|version) ([0-9]{1,19})|block ([0-9]{1,19}) ([0-9a-f]{64})|(names|load) ([0-9a-f]{64})"
)


@dataclass(frozen=True)
class Sums:
    """The sums of a journal at a position, whose bytes are those before `size`. `version` is its version byte, and
    `names` and `load` are the sums of the files that were beside it, if there were any: the dictionary, and what was
    loaded."""

    position: int
    size: int
    version: str
    blocks: tuple[str, ...]
    names: str | None = None
    load: str | None = None

    def text(self) -> str:
        """The sums as a file has them."""
        lines = [HEADER, f"position {self.position}", f"version {self.version}", f"bytes {self.size}"]
        lines += [f"block {place * BLOCK} {sum_of}" for place, sum_of in enumerate(self.blocks)]
        lines += [f"{word} {sum_of}" for word, sum_of in (("names", self.names), ("load", self.load)) if sum_of]
        return "".join(f"{line}\n" for line in lines)


def digest(content: bytes) -> str:
    """The SHA-256 of bytes."""
    return hashlib.sha256(content).hexdigest()


def blocks_of(file: int, size: int) -> Iterator[bytes]:
    """The bytes of a file before a place, block by block; the last one is shorter, or missing in a short file."""
    for start in range(0, size, BLOCK):
        wanted = min(BLOCK, size - start)
        yield os.pread(file, wanted, start)


def sums_of(file: int, size: int, position: int, names: bytes | None, load: bytes | None) -> Sums:
    """The sums of a journal that is read, and of what is beside it."""
    version = os.pread(file, 1, VERSION_PLACE).decode("latin-1")
    blocks = tuple(map(digest, blocks_of(file, size)))
    beside = (None if content is None else digest(content) for content in (names, load))
    return Sums(position, size, version if version in "12" else "1", blocks, *beside)


def read_sums(path: Path) -> Sums | None:
    """The sums in a file; none if there is no file."""
    try:
        lines = path.read_text("ascii").splitlines()
    except FileNotFoundError:
        return None
    except (OSError, UnicodeDecodeError) as error:
        raise Trouble(f"{path}: {getattr(error, 'strerror', None) or 'is damaged'}") from None
    numbers: dict[str, str] = {}
    blocks: list[str] = []
    beside: dict[str, str] = {}
    for line in lines[1:]:
        found = LINE.fullmatch(line)
        if not found or found[3] and int(found[3]) != len(blocks) * BLOCK:
            raise Trouble(f"{path} is damaged")
        if found[1]:
            numbers[found[1]] = found[2]
        elif found[4]:
            blocks.append(found[4])
        elif found[5]:
            beside[found[5]] = found[6]
    if lines[:1] != [HEADER] or set(numbers) != {"position", "bytes", "version"}:
        raise Trouble(f"{path} is damaged")
    position, size = int(numbers["position"]), int(numbers["bytes"])
    sums = Sums(position, size, numbers["version"], tuple(blocks), beside.get("names"), beside.get("load"))
    if len(blocks) != -(-sums.size // BLOCK):
        raise Trouble(f"{path} is damaged")
    return sums


def is_raised(block: bytes, sums: Sums) -> bool:
    """Whether the first block differs by its version alone, which a checkpoint raises."""
    if sums.version == VERSION_2 or block[VERSION_PLACE : VERSION_PLACE + 1] != VERSION_2.encode():
        return False
    before = block[:VERSION_PLACE] + sums.version.encode() + block[VERSION_PLACE + 1 :]
    return digest(before) == sums.blocks[0]


def changed(file: int, sums: Sums) -> list[tuple[int, int]]:
    """Where bytes aren't as they were: ranges of whole blocks."""
    ranges: list[tuple[int, int]] = []
    for number, block in enumerate(blocks_of(file, sums.size)):
        start = number * BLOCK
        if digest(block) == sums.blocks[number] or number == 0 and is_raised(block, sums):
            continue
        end = min(start + BLOCK, sums.size)
        if ranges and ranges[-1][1] == start:
            ranges[-1] = ranges[-1][0], end
        else:
            ranges.append((start, end))
    return ranges
