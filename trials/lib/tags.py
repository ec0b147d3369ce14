"""Rows with numbers of their own, by which a commit is known again whose reply nobody saw."""
import re
from collections.abc import Sequence

from history import Committed, Event, Inserted

FIRST_TAG = 1_000_000
TAGGED = re.compile(rb"(\w+): INSERT INTO m VALUES \(-?\d+, 1, (\d{7})\)")


def tags_of_lines(lines: Sequence[bytes]) -> dict[str, list[int]]:
    """The numbers that each session inserts, in the order of its lines."""
    found: dict[str, list[int]] = {}
    for line in lines:
        if tagged := TAGGED.fullmatch(line):
            found.setdefault(tagged[1].decode(), []).append(int(tagged[2]))
    return found


def tags_of_events(events: Sequence[Event]) -> list[int]:
    """The numbers that events inserted."""
    operations = [it for event in events if isinstance(event, Committed) for it in event.operations]
    rows = [row for it in operations if isinstance(it, Inserted) for row in it.rows]
    return [tag for row in rows for tag in row[2:] if tag is not None and FIRST_TAG < tag < 2 * FIRST_TAG]
