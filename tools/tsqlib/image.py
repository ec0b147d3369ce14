"""Reads a saved image, with which a history may begin, by `docs/JOURNAL.md`, and tells whether it is a valid one."""
from __future__ import annotations

from bisect import bisect_right
from collections.abc import Iterable, Sequence
from itertools import pairwise
from typing import TYPE_CHECKING, Any, NamedTuple

from .journal import (
    LEAST_TIME, MOST_TIME, Bytes, Commit, Event, Fields, Hyper, Insert, Row, Table, View, Wrong, event,
)  # fmt: skip

if TYPE_CHECKING:
    from .history import History

LAST_POSITION = 2**62
Span = tuple[int, int]


class Last(NamedTuple):
    """Buckets that were last refreshed at one position."""

    start: int
    end: int
    position: int


class Part(NamedTuple):
    """What a group keeps of the values of one function."""

    rows: int
    values: int
    total: int
    least: int | None
    most: int | None


class Group(NamedTuple):
    start: int
    keys: list[int | None]
    parts: list[Part]


class SavedView(NamedTuple):
    """What is kept of an aggregate: when its buckets were last refreshed, which of them are dirty, as pairs of a start
    and an end, the groups of those, and its watermark."""

    lasts: list[Last]
    dirty: list[Span]
    groups: list[Group]
    mark: int | None


class Waiting(NamedTuple):
    """A refresh that was cut and not finished."""

    cut: int
    view: int
    start: int
    end: int


class Finished(NamedTuple):
    cut: int
    built: int


class Image(NamedTuple):
    """What a history was at a position: its tables and aggregates as events, its rows as commits, and its refreshes."""

    position: int
    roster: list[Event]
    commits: list[Commit]
    views: list[SavedView]
    waiting: list[Waiting]
    finished: list[Finished]


def require(holds: object) -> None:
    """Ends as Wrong if something that must be true isn't."""
    if not holds:
        raise Wrong


def rises(items: Sequence[Any]) -> bool:
    """Whether each item is less than the next."""
    return all(one < other for one, other in zip(items, items[1:]))


def in_order(values: Iterable[int | None]) -> list[tuple[bool, int]]:
    """Values as they are ordered: NULL is greater than every number."""
    return [(value is None, value or 0) for value in values]


# ---- the bytes


class ImageFields(Fields):
    """The fields of an image."""

    def framed_event(self) -> Event:
        size = self.u32()
        framed = self.payload[self.at : self.at + size]
        require(len(framed) == size)
        self.at += size
        return event(framed)

    def framed_commit(self) -> Commit:
        new = self.framed_event()
        if not isinstance(new, Commit):
            raise Wrong
        return new

    def wide(self) -> int:
        """A number of 128 bits."""
        wide = self.payload[self.at : self.at + 16]
        require(len(wide) == 16)
        self.at += 16
        return int.from_bytes(wide, "little", signed=True)

    def last(self) -> Last:
        return Last(self.i64(), self.i64(), self.u64())

    def span(self) -> Span:
        return self.i64(), self.i64()

    def part(self) -> Part:
        return Part(self.u64(), self.u64(), self.wide(), self.value(), self.value())

    def group(self, view: View) -> Group:
        start = self.i64()
        keys = [self.value() for _ in view.keys]
        return Group(start, keys, [self.part() for _ in view.functions])

    def saved_view(self, view: View) -> SavedView:
        return SavedView(
            self.many(self.last), self.many(self.span), self.many(lambda: self.group(view)), self.value()
        )

    def saved_views(self, views: list[View]) -> list[SavedView]:
        require(self.u32() == len(views))
        return [self.saved_view(view) for view in views]

    def waiting(self) -> Waiting:
        return Waiting(self.u64(), self.u32(), self.i64(), self.i64())

    def finished(self) -> Finished:
        return Finished(self.u64(), self.u64())


def roster_of(payload: Bytes) -> list[Event]:
    """The events of the tables and aggregates of an image."""
    fields = ImageFields(payload)
    fields.u8()
    fields.u64()
    return fields.many(fields.framed_event)


def read_image(payload: Bytes) -> Image:
    """The image that a payload is, by its bytes alone."""
    fields = ImageFields(payload)
    fields.u8()
    position = fields.u64()
    roster = fields.many(fields.framed_event)
    commits = fields.many(fields.framed_commit)
    views = fields.saved_views([it for it in roster if isinstance(it, View)])
    image = Image(position, roster, commits, views, fields.many(fields.waiting), fields.many(fields.finished))
    require(fields.at == len(payload))
    return image


# ---- which images are valid


def require_relations(history: History, roster: list[Event]) -> None:
    """Takes tables, each with what makes it a hypertable directly behind it, and then aggregates."""
    for before, new in zip([None, *roster], roster):
        if isinstance(new, Hyper):
            require(isinstance(before, Table) and new.table == len(history.tables) - 1)
        else:
            require(isinstance(new, View) or isinstance(new, Table) and not isinstance(before, View))
        history.add(new)


def only_insert(commit: Commit) -> Insert:
    """The operation of a commit of an image."""
    require(len(commit.operations) == 1)
    (insert,) = commit.operations
    if not isinstance(insert, Insert):
        raise Wrong
    return insert


def require_commits(history: History, commits: list[Commit]) -> None:
    """Takes one insert for each table with rows, all of them in order."""
    low = 0
    for new in commits:
        insert = only_insert(new)
        require(low <= insert.table)
        history.add(new)
        rows = ((row[0], in_order(row[1:])) for row in insert.rows)
        require(all(one <= other for one, other in pairwise(rows)))
        low = insert.table + 1


def require_spans(view: View, spans: Sequence[Span]) -> None:
    """Ranges of whole buckets, none of which is empty, rise and don't overlap."""
    for start, end in spans:
        require(view.first() <= start < end)
        require((start - view.offset) % view.width == 0 == (end - view.offset) % view.width)
    require(all(one[1] <= other[0] for one, other in zip(spans, spans[1:])))


def lies_in(spans: Sequence[Span], bucket: int) -> bool:
    """Whether a bucket lies in one of these ranges, which rise."""
    place = bisect_right(spans, bucket, key=lambda span: span[1])
    return place < len(spans) and spans[place][0] <= bucket


def has_lasts(lasts: Sequence[Last], span: Span) -> bool:
    """Whether each bucket of a range was refreshed."""
    at, end = span
    for last in lasts:
        if last.start <= at < last.end:
            at = last.end
    return at >= end


def require_part(part: Part) -> None:
    """Sums that rows may have."""
    require(part.values <= part.rows < 2**62)
    require(-(2**63) * part.values <= part.total <= (2**63 - 1) * part.values)
    require((part.values == 0) == (part.least is None) == (part.most is None))


def require_mark(view: View, mark: int | None) -> None:
    """A watermark is the end of a bucket that holds a time."""
    require(mark is None or (mark - view.offset) % view.width == 0)
    require(mark is None or LEAST_TIME < mark and mark - view.width <= MOST_TIME)


def require_view(position: int, view: View, rows: Iterable[Row], saved: SavedView) -> None:
    """What is kept of an aggregate over a table with these rows."""
    lasts = [(last.start, last.end) for last in saved.lasts]
    require_spans(view, lasts)
    require_spans(view, saved.dirty)
    require(all(last.position < position for last in saved.lasts))
    require(all(has_lasts(saved.lasts, span) for span in saved.dirty))
    require_mark(view, saved.mark)
    require(rises([(group.start, in_order(group.keys)) for group in saved.groups]))
    mark = view.first() if saved.mark is None else saved.mark
    for group in saved.groups:
        require(group.start < mark)
        require((group.start - view.offset) % view.width == 0 and lies_in(saved.dirty, group.start))
        for part in group.parts:
            require_part(part)
    for row in rows:
        bucket = row[0] - (row[0] - view.offset) % view.width
        if lies_in(lasts, bucket) and not lies_in(saved.dirty, bucket) and all(it.passed_by(row) for it in view.tests):
            require(bucket < mark)


def require_refreshes(history: History, image: Image) -> None:
    """The refreshes that wait, and those that were finished."""
    cuts = [it.cut for it in image.waiting]
    require(rises(cuts) and rises([it.cut for it in image.finished]))
    for it in image.waiting:
        require(1 <= it.cut <= image.position and it.view < len(history.views))
        require_spans(history.views[it.view], [(it.start, it.end)])
    for done in image.finished:
        require(1 <= done.cut < done.built <= image.position and done.cut not in cuts)


def require_valid(history: History, image: Image) -> None:
    """Ends as Wrong where an image isn't valid. The history, which is new, gets its relations."""
    require(image.position <= LAST_POSITION)
    require_relations(history, image.roster)
    require_commits(history, image.commits)
    rows = {insert.table: insert.rows for insert in map(only_insert, image.commits)}
    for view, saved in zip(history.views, image.views):
        require_view(image.position, view, rows.get(view.table, []), saved)
    require_refreshes(history, image)
