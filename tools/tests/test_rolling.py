"""Adding up an aggregate's groups, against the rows themselves."""
import random
import unittest
from collections import defaultdict
from fractions import Fraction

from tsqlib.aggregates import Aggregate, Value
from tsqlib.asking import Shown
from tsqlib.gaps import Edges, states_of
from tsqlib.moments import Clock
from tsqlib.rolling import Rolled, roll_up, text_of, totals_of

ALL = (
    Value("n", "count(*)"), Value("c", "count", "v"), Value("s", "sum", "v"), Value("lo", "min", "v"),
    Value("hi", "max", "v"), Value("mean", "avg", "v"), Value("last", "max", "time", True),
)  # fmt: skip


def aggregate(
    *values: Value, width: int = 10, never_null: tuple[str, ...] = ("time",), keys: tuple[str, ...] = ("dev",)
) -> Aggregate:
    return Aggregate("a", "b", width, 0, keys, values, False, "m", "time", ("time", "dev", "v"), frozenset(never_null))


def folded(rows: list[tuple[int, int, int | None]], bucket_of: object) -> list[list[str]]:
    """Rows by bucket and key, as tsctl would fold them into the columns of ALL."""
    groups = defaultdict(list)
    for time, dev, v in rows:
        groups[bucket_of(time), dev].append((time, v))  # type: ignore[operator]
    out = []
    for (start, dev), found in sorted(groups.items()):
        values = [v for _, v in found if v is not None]
        cells = [len(found), len(values), sum(values) if values else None, min(values, default=None),
                 max(values, default=None), Fraction(sum(values), len(values)) if values else None,
                 max(time for time, _ in found)]  # fmt: skip
        out.append([str(start), str(dev), *map(text_of, cells)])
    return out


class RollTest(unittest.TestCase):
    def test_equals_a_fold_of_the_rows(self) -> None:
        rng = random.Random(3)
        for _ in range(50):
            rows = [(rng.randrange(-300, 300), rng.randrange(3), None if rng.random() < 0.3 else rng.randrange(-9, 9))
                    for _ in range(rng.randrange(1, 200))]  # fmt: skip
            of_tens = folded(rows, lambda time: time // 10 * 10)
            rolled = roll_up(aggregate(*ALL), of_tens, lambda time: (time // 70 * 70, time // 70 * 70 + 70))
            self.assertEqual(rolled.rows(), folded(rows, lambda time: time // 70 * 70))
            self.assertEqual(rolled.across, set())

    def test_averages_need_a_count(self) -> None:
        mean, count, total, everything = ALL[5], ALL[1], ALL[2], ALL[0]
        cases = [
            ([mean], [], ["mean"], ("time",)),
            ([mean, count], ["mean", "c"], [], ("time",)),
            ([mean, everything], ["n"], ["mean"], ("time",)),
            ([mean, everything], ["mean", "n"], [], ("time", "v")),
            ([total, count], ["s", "c", "avg_v"], [], ("time",)),
            ([total, everything], ["s", "n"], [], ("time",)),
            ([total, everything], ["s", "n", "avg_v"], [], ("time", "v")),
        ]
        for values, names, missing, never_null in cases:
            with self.subTest(names=names):
                totals, left = totals_of(aggregate(*values, never_null=never_null))
                self.assertEqual(([total.name for total in totals], left), (names, missing))

    def test_an_average_without_a_sum_is_exact(self) -> None:
        rolled = roll_up(aggregate(ALL[5], ALL[1]), [["0", "1", "1/3", "3"], ["10", "1", "null", "0"],
                                                     ["20", "1", "7/2", "2"]],
                         lambda time: (0, 100))  # fmt: skip
        self.assertEqual(rolled.rows(), [["0", "1", "8/5", "5"]])

    def test_null_keys_come_last_and_sums_are_wide(self) -> None:
        rows = [["0", "null", str(2**63 - 1)], ["10", "-1", "1"], ["20", "null", str(2**63 - 1)]]
        rolled = roll_up(aggregate(ALL[2]), rows, lambda time: (0, 100))
        self.assertEqual(rolled.rows(), [["0", "-1", "1"], ["0", "null", str(2**64 - 2)]])

    def test_buckets_in_two_periods_are_told(self) -> None:
        rolled = roll_up(aggregate(ALL[0]), [["0", "1", "1"], ["10", "1", "1"], ["20", "1", "1"]],
                         lambda time: (time // 15 * 15, time // 15 * 15 + 15))  # fmt: skip
        self.assertEqual((rolled.across, rolled.spans), ({10}, {0: 15, 15: 30}))
        edges, clock = Edges(None, None, None), Clock()
        self.assertEqual(edges.cut(0, 15, {10}, 10, clock), "with all of the bucket 10..20")
        self.assertEqual(edges.cut(15, 30, {10}, 10, clock), "without its part of the bucket 10..20")
        self.assertEqual(edges.cut(30, 45, {10}, 10, clock), "")


class StatesTest(unittest.TestCase):
    def test_names_what_is_stale_dropped_and_cut(self) -> None:
        rolled = Rolled([], {}, {0: 100, 100: 200, 200: 300})
        it = aggregate(*ALL)
        shown = Shown("a", it.output(), [], late=[(90, 100)], dropped=[(None, 50)], position=7)
        states = states_of(shown, rolled, Edges(None, None, 250), 10, Clock())
        self.assertEqual([state.words() for state in states.values()], ["stale, dropped", "", "cut"])
        self.assertEqual(states[200].cut, "up to the watermark 250")
        self.assertEqual(states[0].cells(), ["true", "true", "false"])
        for edges, wanted in [(Edges(10, None, None), "from 10 on"), (Edges(None, 20, None), "up to 20"),
                              (Edges(0, 100, 100), "")]:  # fmt: skip
            self.assertEqual(edges.cut(0, 100, set(), 10, Clock()), wanted)
