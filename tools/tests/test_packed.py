"""Rows that are packed: the same rows in the same order as in lists, however many parts they have."""
from __future__ import annotations

import random
import tracemalloc
import unittest
from collections.abc import Callable
from operator import itemgetter
from unittest import mock

from tsqlib import packed
from tsqlib.packed import Left, Row, Rows


def is_less(place: int, bound: int) -> Callable[[Row], bool]:
    """Whether the value of a row at a place is less than a bound."""
    return lambda row: row[place] is not None and row[place] < bound


class RowsTest(unittest.TestCase):
    def test_what_is_known_of_them(self) -> None:
        rows: list[Row] = [[5, 1, None], [2**62, -(2**63), 7], [-1, None, 0]]
        with mock.patch.object(packed, "MOST_IN_PART", 2):
            found = Rows(rows)
        self.assertEqual((list(found), list(found), len(found)), (rows, rows, 3))
        self.assertEqual((found.widths, found.empty, len(found.parts)), ({3}, {1, 2}, 2))
        self.assertEqual((len(Rows([])), Rows([[1], [1, 2]]).widths), (0, {1, 2}))


class LeftTest(unittest.TestCase):
    def check(self, chance: random.Random, lateness: int) -> None:
        """Inserts and deletes that follow from a seed, compared with those over a list."""
        left, wanted, number = Left(), list[Row](), 0
        has_removed = False
        for time in range(0, 400, 10):
            rows = [[time - chance.randrange(lateness), chance.choice([None, *range(9)]), number + at]
                    for at in range(chance.randrange(12))]  # fmt: skip
            number += len(rows)
            left.insert(Rows(rows))
            wanted += rows
            if chance.random() < 0.2:
                matches = is_less(*chance.choice([(0, time - 100), (1, 3)]))
                left.delete(matches)
                kept = [row for row in wanted if not matches(row)]
                has_removed |= len(kept) < len(wanted)
                wanted = kept
        wanted.sort(key=itemgetter(0))
        self.assertEqual(list(left), wanted)
        self.assertEqual(list(left), wanted, "they are read again")
        self.assertEqual(left.has_removed, has_removed)
        times = [row[0] for row in wanted]
        self.assertGreaterEqual(left.width(), max(times) - min(times))

    def test_they_come_by_their_times_without_those_that_were_removed(self) -> None:
        for seed in range(20):
            for part, run, waiting, lateness in ((4, 9, 8, 20), (2, 64, 16, 400), (3, 3, 1, 1), (512, 1024, 4096, 50)):
                with self.subTest(seed=seed, part=part, run=run, waiting=waiting), mock.patch.multiple(
                    packed, MOST_IN_PART=part, MOST_IN_RUN=run, MOST_WAITING=waiting
                ):
                    self.check(random.Random(seed), lateness)

    def test_none(self) -> None:
        self.assertEqual((list(Left()), Left().width()), ([], 0))

    def test_many_rows_take_little_memory(self) -> None:
        count = 20_000
        tracemalloc.start()
        self.addCleanup(tracemalloc.stop)
        left = Left()
        # One at a time, as a sensor sends them.
        for number in range(count):
            left.insert(Rows([[1_700_000_000_000 + number, number % 7, None]]))
        left.pack()
        self.assertLess(tracemalloc.get_traced_memory()[0] / count, 40)


if __name__ == "__main__":
    unittest.main()
