"""What `drop_chunks` took away, by a journal: an aggregate goes on showing it, and a refresh would lose it."""
from __future__ import annotations

from pathlib import Path

from .image import read_image
from .journal import (
    BASE, COMMIT, HYPER, VIEW, Bytes, Commit, Damaged, Hyper, Insert, View, Wrong, event, frames, last_base,
)  # fmt: skip
from .replies import Range, Reply
from .roster import Chunks, times_in
from .schema import source_of

FIRST = 8


class Drops:
    """Follows the chunks of tables from event to event, by their numbers, and the aggregates by their names."""

    def __init__(self) -> None:
        self.chunks: dict[int, Chunks] = {}
        self.views: dict[str, View] = {}

    def kept_from(self, view: str) -> int | None:
        """The start of the first bucket of an aggregate after all rows that were dropped; none if none were."""
        found = self.views.get(view)
        until = self.chunks[found.table].until if found and found.table in self.chunks else None
        return None if found is None or until is None else until + (found.offset - until) % found.width

    def add(self, payload: Bytes) -> None:
        """Takes the next event."""
        kind = payload[0] if len(payload) else 0
        if kind == COMMIT and (found := times_in(bytes(payload))):
            table, times = found
            self.chunks_of(table).insert(times)
        elif kind in (COMMIT, HYPER, VIEW):
            self.add_event(event(payload))

    def add_event(self, new: object) -> None:
        """Takes a hypertable, an aggregate or a commit."""
        if isinstance(new, Hyper):
            self.chunks[new.table] = Chunks(new.interval)
        elif isinstance(new, View):
            self.views[new.name] = new
        elif isinstance(new, Commit):
            for operation in new.operations:
                if isinstance(operation, Insert):
                    self.chunks_of(operation.table).insert([row[0] for row in operation.rows])
                else:
                    self.chunks_of(operation.table).delete(operation.tests)

    def chunks_of(self, table: int) -> Chunks:
        """The chunks of a hypertable, which must be there."""
        if table not in self.chunks:
            raise Wrong
        return self.chunks[table]

    def begin_with(self, payload: Bytes) -> None:
        """Begins with an image, for a journal that has nothing before it."""
        image = read_image(payload)
        for new in [*image.roster, *image.commits]:
            self.add_event(new)


class JournalDrops:
    """What was dropped in a folder, by its journal, of which each frame is read once.

    Events before an image count too: they are in the file, though the history begins with the image.
    """

    def __init__(self, folder: str | Path) -> None:
        self.path = Path(folder) / "tsctl.journal"
        self.drops = Drops()
        self.gate = FIRST

    def kept_from(self, view: str) -> int | None:
        """The start of the first bucket of an aggregate after all rows that were dropped; none if none were."""
        try:
            self.read_on()
        except Wrong:
            # Nobody looks at what is before an image, so it may be anything.
            self.begin_with_image()
        except (OSError, Damaged):
            pass
        return self.drops.kept_from(view)

    def parted(self, reply: Reply, width: int | None) -> Reply:
        """An answer with the stale ranges of dropped rows apart from the others. Its buckets have this width."""
        kept_from = self.kept_from(source_of(reply.line.tokens())) if reply.stale else None
        return with_drops(reply, kept_from, width)

    def read_on(self) -> None:
        """Takes the frames that came since."""
        with open(self.path, "rb") as file:
            file.seek(self.gate)
            rest = memoryview(file.read())
        start = self.gate
        for place, payload in frames(rest, 0) if len(rest) > 1 else ():
            if payload[:1] != BASE:
                self.drops.add(payload)
            elif start + place == FIRST:
                self.drops.begin_with(payload)
            self.gate = start + place + 5 + len(payload)

    def begin_with_image(self) -> None:
        """Takes the frames from the last image on."""
        content = memoryview(self.path.read_bytes())
        self.drops, base = Drops(), last_base(content)
        for place, payload in frames(content, base):
            if place == base and payload[:1] == BASE:
                self.drops.begin_with(payload)
            else:
                self.drops.add(payload)
            self.gate = place + 5 + len(payload)


def with_drops(reply: Reply, kept_from: int | None, width: int | None) -> Reply:
    """An answer with the stale ranges before a time, which `drop_chunks` made, apart from the others."""
    dropped, late = parted(reply.stale, kept_from, width or 1)
    return reply._replace(stale=late, dropped=dropped)


def parted(stale: list[Range], kept_from: int | None, width: int = 1) -> tuple[list[Range], list[Range]]:
    """The stale ranges that `drop_chunks` made, before a time, and those that are late, from that time on. Buckets of
    this width are in one of them as a whole."""
    dropped: list[Range] = []
    late: list[Range] = []
    for low, high in stale:
        cut = high if kept_from is None else high - -(-(high - kept_from) // width) * width
        if kept_from is None or low is not None and cut <= low:
            late.append((low, high))
        elif high <= cut:
            dropped.append((low, high))
        else:
            dropped.append((low, cut))
            late.append((cut, high))
    return dropped, late
