"""What a power cut may leave of a journal, by the model of a disk under "What a crash may leave" in docs/JOURNAL.md.

Between two syncs each written range may hold any bytes, and the file any length from the old one to the new one.
"""
import random
import struct
from typing import NamedTuple


class Call(NamedTuple):
    """A call that was traced: a write with its place and bytes, a sync, or how many bytes of replies went out."""

    kind: str
    place: int
    data: bytes
    size: int


def read_trace(trace: bytes) -> list[Call]:
    calls, at = [], 0
    while at < len(trace):
        kind, place, size = struct.unpack_from("<cqI", trace, at)
        at += 13
        data = trace[at : at + size] if kind == b"w" else b""
        at += len(data)
        calls.append(Call(kind.decode(), place, data, size))
    return calls


class Image(NamedTuple):
    """A journal after a power cut, and how many bytes of replies were out before it."""

    file: bytes
    replied: int


def torn(rng: random.Random, data: bytes) -> bytes:
    """What may stand where bytes were written and not brought to the disk, or an empty text for what stood before."""
    kind = rng.randrange(6)
    if kind == 0:
        return b""
    if kind == 1:
        return data[: rng.randrange(len(data) + 1)]
    if kind == 2:
        return rng.randbytes(len(data))
    if kind == 3:
        return bytes(len(data))
    if kind == 4:
        return bytes(rng.choice([byte, byte, 0, 1, 255]) for byte in data)
    return data


def put(file: bytearray, place: int, data: bytes) -> None:
    if len(file) < place + len(data):
        file.extend(bytes(place + len(data) - len(file)))
    file[place : place + len(data)] = data


def crash(rng: random.Random, before: bytes, calls: list[Call]) -> Image:
    """The image at some moment. Most moments are chosen near a write, few among those that reserve room."""
    moments = [at for at, call in enumerate(calls) if call.kind != "w" or call.data.strip(b"\0")] or [0]
    moment = rng.choice(moments) + rng.randrange(2)
    synced, pending = bytearray(before), []
    for call in calls[:moment]:
        if call.kind == "w":
            pending.append(call)
        elif call.kind == "s":
            for write in pending:
                put(synced, write.place, write.data)
            pending = []
    shortest = longest = len(synced)
    for write in pending:
        longest = max(longest, write.place + len(write.data))
    for write in pending:
        put(synced, write.place, torn(rng, write.data))
    length = rng.choice([longest, longest, rng.randrange(shortest, longest + 1)])
    synced.extend(bytes(max(0, length - len(synced))))
    replied = sum(call.size for call in calls[:moment] if call.kind == "o")
    return Image(bytes(synced[: max(length, shortest)]), replied)
