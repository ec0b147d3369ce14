"""What a picture has, before it is drawn."""
import unittest

from tsqlib.messages import Trouble
from tsqlib.replies import Range
from tsqlib.picture import (
    COLORS, MOST_LINES, Column, Mark, Row, bounds_of, look_of, marks_of, panels_of, pieces_of, shared, widened,
)  # fmt: skip


class LinesTest(unittest.TestCase):
    def test_a_value_holds_up_to_its_end_and_gaps_break_a_line(self) -> None:
        points = [(0, 10, 1.0), (10, 20, 2.0), (30, 40, 3.0)]
        self.assertEqual(pieces_of(points), [[(0, 1.0), (10, 1.0), (10, 2.0), (20, 2.0)], [(30, 3.0), (40, 3.0)]])
        self.assertEqual(pieces_of([]), [])

    def test_columns_of_one_kind_and_scale_share_a_panel(self) -> None:
        cases = [
            ([("lo", "v"), ("hi", "v"), ("n", "count")], [5, 9, 7], [[0, 1], [2]]),
            ([("lo", "v"), ("hi", "v")], [5, 51], [[0], [1]]),
            ([("lo", "v"), ("n", "count"), ("hi", "v")], [5, 0, 50], [[0, 2], [1]]),
            ([("a", ""), ("b", "")], [0, 10**9], [[0, 1]]),
        ]
        for columns, greatest, panels in cases:
            with self.subTest(columns=columns):
                self.assertEqual(shared([Column(*it) for it in columns], greatest), panels)

    def test_looks_differ(self) -> None:
        for keys, columns in [(1, 6), (3, 3), (8, 6), (9, 3), (48, 1)]:
            looks = [look_of(key, column, keys) % MOST_LINES for key in range(keys) for column in range(columns)]
            self.assertEqual(len(set(looks)), keys * columns, (keys, columns))
        # A list of keys has one color in all panels.
        self.assertEqual({look_of(2, column, 5) % COLORS for column in range(3)}, {2})

    def test_titles_name_the_column_only_if_it_is_needed(self) -> None:
        rows = [Row(0, 10, ("7",), (1.0, 2.0, 500.0)), Row(0, 10, ("x y",), (1.5, None, 700.0))]
        columns = [Column("lo", "v"), Column("hi", "v"), Column("n", "count")]
        panels = panels_of(columns, ["dev"], rows)
        self.assertEqual([panel.label for panel in panels], ["lo, hi", "n"])
        self.assertEqual([line.title for line in panels[0].lines], ["lo, dev 7", "hi, dev 7", "lo, dev x y"])
        self.assertEqual([line.title for line in panels[1].lines], ["dev 7", "dev x y"])

    def test_too_many_lines_are_counted(self) -> None:
        rows = [Row(0, 10, (str(key),), (1.0,)) for key in range(MOST_LINES + 3)]
        (panel,) = panels_of([Column("v", "v")], ["k"], rows)
        self.assertEqual((len(panel.lines), panel.undrawn), (MOST_LINES, 3))

    def test_nothing_but_null_is_refused(self) -> None:
        with self.assertRaises(Trouble):
            panels_of([Column("v", "v")], [], [Row(0, 10, (), (None,))])


class RangesTest(unittest.TestCase):
    def test_a_picture_has_all_buckets_and_ranges(self) -> None:
        rows = [Row(100, 110, (), ()), Row(190, 200, (), ())]
        cases: list[tuple[list[Range], tuple[int, int]]]
        cases = [([], (100, 200)), ([(50, 60)], (50, 200)), ([(150, 300)], (100, 300)), ([(None, 120)], (90, 200))]
        for ranges, bounds in cases:
            with self.subTest(ranges=ranges):
                self.assertEqual(bounds_of(rows, ranges), bounds)

    def test_marks_are_within_the_picture(self) -> None:
        marks = marks_of("stale", [(None, 10), (20, 300), (400, 500)], 0, 200)
        self.assertEqual(marks, [Mark("stale", 0, 10), Mark("stale", 20, 200)])

    def test_marks_are_wide_enough_and_stay_apart(self) -> None:
        cases = [
            ([(50, 51)], [(49.0, 52.0)]),
            ([(0, 1)], [(0, 3)]),
            ([(99, 100)], [(97, 100)]),
            ([(10, 60)], [(10, 60)]),
            ([(10, 11), (12, 13)], [(9.0, 14.0)]),
            ([(10, 11), (20, 21)], [(9.0, 12.0), (19.0, 22.0)]),
        ]
        for ranges, wanted in cases:
            with self.subTest(ranges=ranges):
                self.assertEqual(widened([Mark("stale", *it) for it in ranges], 3, 0, 100), wanted)
