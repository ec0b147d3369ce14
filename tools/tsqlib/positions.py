"""Events of a journal by their positions, without reading all of it."""
from __future__ import annotations

from collections.abc import Iterator
from pathlib import Path

from .history import History
from .image import roster_of
from .journal import HYPER, MODE, TABLE, VIEW, Bytes, Damaged, Event, event, frames, is_base
from .messages import Trouble
from .schema import mapped

FIRST = 8
DEFINITIONS = (TABLE, HYPER, VIEW, MODE)


def positions(file: Bytes) -> Iterator[tuple[int, Bytes]]:
    """Each payload of a journal's bytes with its position; that of an image is the position that it is of. Events
    before an image count too, if they are in the file."""
    position = 0
    for _, payload in frames(memoryview(file), FIRST) if len(file) > FIRST + 1 else ():
        position = int.from_bytes(payload[1:9], "little") if is_base(file, payload) else position + 1
        yield position, payload


def position_in(journal: Path) -> int:
    """The position of a journal; 0 if there is none."""
    last = 0
    if journal.exists():
        with mapped(journal) as file:
            for last, _ in positions(file):
                pass
    return last


def event_at(journal: Path, wanted: int) -> tuple[History, Event] | None:
    """The event at a position, with the tables and aggregates up to it; nothing if the journal hasn't it any more."""
    history = History()
    try:
        with mapped(journal) as file:
            for position, payload in positions(file):
                if is_base(file, payload):
                    history = History()
                    for relation in roster_of(payload):
                        history.add(relation)
                elif position == wanted:
                    return history, event(payload)
                elif payload[:1] and payload[0] in DEFINITIONS:
                    history.add(event(payload))
    except Damaged as damaged:
        raise Trouble(str(damaged)) from None
    return None
