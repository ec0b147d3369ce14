"""Thinning of rows for a picture."""
import random
import unittest

from tsqlib.samples import FirstRows, MOST_LINES, Samples, number_of


class SamplesTest(unittest.TestCase):
    def test_few_rows_stay_as_they_are(self) -> None:
        samples = Samples(1, [(2, 0)], 10, 8)
        for row in (["0", "7", "5/2"], ["0", "8", "null"], ["10", "7", "3"]):
            samples.add(row)
        self.assertEqual(samples.points(), [(("7",), [[(0, 2.5), (10, 3.0)]]), (("8",), [[]])])
        self.assertFalse(samples.is_thinned())

    def test_cells_are_bounded_and_keep_extremes(self) -> None:
        rng = random.Random(1)
        for most in (2, 3, 10, 100):
            values = [rng.randrange(-10**6, 10**6) for _ in range(3000)]
            samples = Samples(0, [(1, 0)], 10, most)
            for place, value in enumerate(values):
                samples.add([str(10 * place - 7000), str(value)])
            ((_, (points,)),) = samples.points()
            self.assertLessEqual(len(points), 4 * most)
            self.assertEqual([points[0][1], points[-1][1]], [values[0], values[-1]])
            self.assertLessEqual({min(values), max(values)}, {value for _, value in points})
            self.assertEqual([at for at, _ in points], sorted(at for at, _ in points))
            self.assertTrue(samples.is_thinned())

    def test_each_cell_is_exact(self) -> None:
        rng = random.Random(2)
        values = {10 * place: rng.randrange(100) for place in range(1000) if rng.random() < 0.7}
        samples = Samples(0, [(1, 0)], 10, 16)
        for at, value in values.items():
            samples.add([str(at), str(value)])
        for number, cell in samples.lines[()].columns[0].items():
            held = {at: value for at, value in values.items() if at // samples.width == number}
            self.assertEqual((cell.least[1], cell.greatest[1]), (min(held.values()), max(held.values())))
            self.assertEqual((cell.first[0], cell.last[0]), (min(held), max(held)))

    def test_columns_share_cells(self) -> None:
        samples = Samples(1, [(2, 1), (3, 0)], 10, 2)
        for place in range(8):
            samples.add([str(10 * place), "7", "null" if place % 2 else str(place), str(-place)])
        ((_, (first, second)),) = samples.points()
        self.assertEqual((samples.width, first), (40, [(0, 0.0), (20, 0.2), (40, 0.4), (60, 0.6)]))
        self.assertEqual(second, [(0, 0.0), (30, -3.0), (40, -4.0), (70, -7.0)])

    def test_lines_are_bounded(self) -> None:
        samples = Samples(1, [(2, 0)], 10, 8)
        for key in range(5000):
            samples.add(["0", str(key), "1"])
        self.assertEqual((len(samples.lines), len(samples.others)), (MOST_LINES, 1000))

    def test_numbers(self) -> None:
        self.assertEqual([number_of("7/2", 10), number_of("-30", 10), number_of(str(2**80), 1)], [0.35, -3.0, 2.0**80])


class FirstRowsTest(unittest.TestCase):
    def test_rows_end_with_a_whole_bucket(self) -> None:
        keep = FirstRows(3)
        rows = keep(iter(["1|a", "2|a", "2|b", "2|c", "3|a"]))
        self.assertEqual((keep.count, keep.next, keep.whole_buckets(rows)), (5, ["2", "c"], [["1", "a"]]))

    def test_a_bucket_that_is_too_long_is_cut(self) -> None:
        keep = FirstRows(2)
        self.assertEqual(len(keep.whole_buckets(keep(iter(["1|a", "1|b", "1|c"])))), 2)


if __name__ == "__main__":
    unittest.main()
