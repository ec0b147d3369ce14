"""What a journal comes to: its tables and aggregates, the rows that are left, and what was refreshed."""
from __future__ import annotations

from collections.abc import Callable

from .history import History, follow
from .image import Image
from .journal import Built, Bytes, Commit, Insert, Test
from .packed import Left, Row


def matching(tests: list[Test]) -> Callable[[Row], bool]:
    """Whether a row passes all of these tests."""
    return lambda row: all(test.passed_by(row) for test in tests)


class Content:
    """What a journal comes to: its history, the rows by their tables, and the windows of finished refreshes by their
    aggregates."""

    def __init__(self, file: Bytes) -> None:
        self.history: History | None = None
        self.rows: dict[int, Left] = {}
        self.windows: dict[int, list[tuple[int, int]]] = {}
        self.has_groups = False
        for history, event, _ in follow(file):
            self.history = history
            if isinstance(event, Image):
                self.resume(event)
            elif isinstance(event, Commit):
                self.commit(event)
            elif isinstance(event, Built):
                cut = history.cuts[event.cut]
                self.windows.setdefault(cut.view, []).append((cut.start, cut.end))

    def resume(self, image: Image) -> None:
        """Begins with an image. The rows of its groups may have been removed."""
        for commit in image.commits:
            self.commit(commit)
        self.windows = {
            view: [(last.start, last.end) for last in saved.lasts] for view, saved in enumerate(image.views)
        }
        self.has_groups = any(saved.groups for saved in image.views)

    def commit(self, event: Commit) -> None:
        """Lets the operations of a commit take effect, one after the other."""
        for operation in event.operations:
            rows = self.rows.setdefault(operation.table, Left())
            if isinstance(operation, Insert):
                rows.insert(operation.rows)
            else:
                rows.delete(matching(operation.tests))

    def has_removed(self) -> bool:
        """Whether rows were removed, once those that are left were read."""
        return any(rows.has_removed for rows in self.rows.values())

    def refreshed(self, view: int) -> list[tuple[int, int]]:
        """The windows of an aggregate in order, those that touch or overlap as one."""
        merged: list[tuple[int, int]] = []
        for start, end in sorted(self.windows.get(view, [])):
            if merged and start <= merged[-1][1]:
                merged[-1] = (merged[-1][0], max(merged[-1][1], end))
            else:
                merged.append((start, end))
        return merged
