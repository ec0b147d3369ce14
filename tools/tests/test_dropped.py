"""What drop_chunks took away, read from the events of a journal."""
import struct
import unittest

from tsqlib.dropped import Drops, parted
from tsqlib.replies import Range


def hyper(interval: int) -> bytes:
    return b"\x02" + struct.pack("<IIq", 0, 0, interval)


def insert(*rows: tuple[int | None, ...]) -> bytes:
    """An operation that inserts rows, each a time and values."""
    out = b"\x01" + struct.pack("<II", 0, len(rows))
    for time, *values in rows:
        out += struct.pack("<qB", time, len(values))
        for value in values:
            out += b"\x00" if value is None else b"\x01" + struct.pack("<q", value)
    return out


def delete(*tests: tuple[int, int, int]) -> bytes:
    """An operation that removes the rows that pass tests."""
    return b"\x02" + struct.pack("<II", 0, len(tests)) + b"".join(struct.pack("<IBq", *test) for test in tests)


def commit(*operations: bytes) -> bytes:
    return b"\x05" + struct.pack("<I", len(operations)) + b"".join(operations)


def drop(end: int) -> bytes:
    return delete((0, 3, end))


class DropsTest(unittest.TestCase):
    def until(self, *events: bytes) -> int | None:
        drops = Drops()
        for event in (hyper(100), *events):
            drops.add(event)
        return drops.chunks[0].until

    def test_ends_after_the_last_row_that_was_dropped(self) -> None:
        rows = insert((5, 1), (120, None), (199, 7), (200, 8))
        cases = [
            ("a chunk", [commit(rows), commit(drop(100))], 6),
            ("two chunks", [commit(rows), commit(drop(200))], 200),
            ("in one commit", [commit(rows, drop(200), insert((3, 3)))], 200),
            ("again", [commit(rows), commit(drop(200)), commit(drop(100))], 200),
            ("no row was there", [commit(insert((500, 1))), commit(drop(200))], None),
            ("rows came back", [commit(rows), commit(drop(100)), commit(insert((7, 1))), commit(drop(100))], 8),
            ("by no chunk's start", [commit(rows), commit(drop(150))], None),
            ("by another test", [commit(rows), commit(delete((1, 3, 100)))], None),
            ("by two tests", [commit(rows), commit(delete((0, 3, 100), (1, 1, 1)))], None),
            ("of all rows", [commit(rows), commit(delete()), commit(drop(200))], None),
            ("before year 0", [commit(insert((-250, 1), (-150, 2))), commit(drop(-200))], -249),
        ]
        for what, events, until in cases:
            with self.subTest(what):
                self.assertEqual(self.until(*events), until)


class PartedTest(unittest.TestCase):
    def test_parts_at_the_first_bucket_that_was_kept(self) -> None:
        cases: list[tuple[list[Range], int | None, int, tuple[list[Range], list[Range]]]] = [
            ([(None, 10), (30, 40)], None, 1, ([], [(None, 10), (30, 40)])),
            ([(None, 10), (30, 40)], 20, 1, ([(None, 10)], [(30, 40)])),
            ([(None, 40)], 20, 10, ([(None, 20)], [(20, 40)])),
            ([(0, 20), (20, 30)], 20, 10, ([(0, 20)], [(20, 30)])),
            # A wider bucket that has both is late.
            ([(0, 30)], 20, 30, ([], [(0, 30)])),
            ([(-30, 60)], 20, 30, ([(-30, 0)], [(0, 60)])),
            ([(5, 35)], 20, 10, ([(5, 15)], [(15, 35)])),
            ([], 20, 1, ([], [])),
        ]
        for stale, kept_from, width, wanted in cases:
            with self.subTest(stale=stale, kept_from=kept_from, width=width):
                self.assertEqual(parted(stale, kept_from, width), wanted)
