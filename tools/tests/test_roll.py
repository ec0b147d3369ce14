"""`tsq roll`, against folds of the rows by the calendar."""
from __future__ import annotations

import contextlib
import csv
import io
import json
import random
import tempfile
import unittest
from datetime import datetime
from fractions import Fraction
from pathlib import Path
from zoneinfo import ZoneInfo

from tests.serving import NEEDS
from tsqlib import programs
from tsqlib.main import options_of
from tsqlib.messages import Trouble
from tsqlib.names import Names

DAY = 86400
START = 1704067200  # 2024-01-01
SETUP = f"""a: CREATE TABLE m (time BIGINT NOT NULL, dev BIGINT, v BIGINT)
a: SELECT create_hypertable('m', 'time', chunk_time_interval => {DAY})
a: CREATE MATERIALIZED VIEW hours WITH (timescaledb.continuous) AS SELECT time_bucket(3600, time) AS hour, dev, \
count(*) AS n, count(v) AS c, sum(v) AS s, min(v) AS lo, max(v) AS hi, avg(v) AS mean FROM m GROUP BY hour, dev WITH \
NO DATA
a: CREATE MATERIALIZED VIEW days WITH (timescaledb.continuous, timescaledb.materialized_only = false) AS SELECT \
time_bucket({DAY}, time) AS day, count(*) AS n, avg(v) AS mean FROM m GROUP BY day WITH NO DATA
"""
Rows = list[tuple[int, int, int | None]]


def rows_of_a_year() -> Rows:
    rng = random.Random(9)
    return [(START + rng.randrange(366 * DAY), rng.randrange(2), None if rng.random() < 0.2 else rng.randrange(-99, 99))
            for _ in range(4000)]  # fmt: skip


def folded(rows: Rows, zone: str) -> dict[tuple[str, int], list[object]]:
    """The rows by month and device."""
    groups: dict[tuple[str, int], list[int | None]] = {}
    for time, dev, v in rows:
        month = datetime.fromtimestamp(time, ZoneInfo(zone)).strftime("%Y-%m")
        groups.setdefault((month, dev), []).append(v)
    out: dict[tuple[str, int], list[object]] = {}
    for key, found in groups.items():
        values = [v for v in found if v is not None]
        out[key] = [len(found), len(values), sum(values), min(values), max(values), Fraction(sum(values), len(values))]
    return out


@NEEDS
class RollTest(unittest.TestCase):
    rows = rows_of_a_year()
    journal: bytes

    @classmethod
    def setUpClass(cls) -> None:
        with tempfile.TemporaryDirectory() as folder:
            inserts = ""
            for begin in range(0, len(cls.rows), 1000):
                values = ", ".join(
                    f"({time}, {dev}, {'NULL' if v is None else v})" for time, dev, v in cls.rows[begin : begin + 1000]
                )
                inserts += f"a: INSERT INTO m VALUES {values}\n"
            refreshes = "".join(
                f"a: CALL refresh_continuous_aggregate('{view}', NULL, NULL)\n" for view in ("hours", "days")
            )
            programs.call(["run"], (SETUP + inserts + refreshes).encode(), folder)
            cls.journal = (Path(folder) / "tsctl.journal").read_bytes()

    def setUp(self) -> None:
        folder = tempfile.TemporaryDirectory()
        self.addCleanup(folder.cleanup)
        self.folder = Path(folder.name)
        (self.folder / "tsctl.journal").write_bytes(self.journal)

    def run_script(self, script: str) -> None:
        programs.call(["run"], script.encode(), self.folder)

    def roll(self, *words: str) -> tuple[str, str]:
        """What `tsq roll` has printed and said."""
        arguments = options_of(["roll", "--in", str(self.folder), *words])
        with contextlib.redirect_stdout(io.StringIO()) as printed, contextlib.redirect_stderr(io.StringIO()) as said:
            self.assertEqual(arguments.call(arguments), 0)
        return printed.getvalue(), said.getvalue()

    def months(self, zone: str, *words: str) -> dict[tuple[str, int], list[object]]:
        """The months as CSV has them."""
        printed, _ = self.roll("hours", "--by", "month", "--times", "s", "--zone", zone, "--csv", "--fractions", *words)
        found: dict[tuple[str, int], list[object]] = {}
        for row in csv.DictReader(io.StringIO(printed)):
            self.assertEqual(row["month"][8:19], "01T00:00:00")
            numbers = [int(row[name]) for name in ("n", "c", "s", "lo", "hi")]
            found[row["month"][:7], int(row["dev"])] = [*numbers, Fraction(row["mean_fraction"])]
        return found

    def test_equals_a_fold_of_the_rows_by_month(self) -> None:
        for zone in ("UTC", "Europe/Berlin", "America/New_York"):
            with self.subTest(zone):
                self.assertEqual(self.months(zone), folded(self.rows, zone))

    def test_works_after_retention_and_names_what_is_late(self) -> None:
        late = START + 200 * DAY + 60
        self.run_script(f"a: SELECT drop_chunks('m', {START + 100 * DAY})\na: INSERT INTO m VALUES ({late}, 0, 1)\n")
        self.assertEqual(self.months("UTC"), folded(self.rows, "UTC"))
        printed, _ = self.roll("hours", "--by", "quarter", "--times", "s")
        lines = printed.splitlines()
        self.assertEqual(
            [line.split()[0] for line in lines[3:11]], [f"2024-Q{quarter}" for quarter in (1, 1, 2, 2, 3, 3, 4, 4)]
        )
        self.assertEqual([line.rpartition("  ")[2] for line in lines[3:11:2]][:3], ["dropped", "dropped", "stale"])
        self.assertIn("stale 2024-07-19 00:00..01:00", lines)
        self.assertTrue(any(line.startswith("dropped 2024-01-01") for line in lines))
        printed, said = self.roll("hours", "--by", "year", "--times", "s", "--json")
        self.assertEqual([json.loads(line)["stale"] for line in printed.splitlines()], [True, True])
        self.assertIn("stale 2024-07-19 00:00..01:00", said)

    def test_names_periods_that_are_cut(self) -> None:
        # Days of UTC lie in two days of Berlin.
        printed, _ = self.roll("days", "--by", "month", "--times", "s", "--zone", "Europe/Berlin", "--to", "2024-03-15")
        self.assertRegex(printed, r"cut 2024-01: with all of the bucket 2024-01-31 01:00..2024-02-01 01:00")
        self.assertRegex(printed, r"cut 2024-02: without its part of the bucket 2024-01-31 01:00")
        self.assertRegex(printed, r"cut 2024-03: up to 2024-03-15, without its part")
        # In UTC they don't. The last hour that was refreshed ends in December.
        printed, _ = self.roll("hours", "--by", "year", "--times", "s", "--from", "2024-02-01")
        self.assertIn("cut 2024: from 2024-02-01 on", printed)
        self.assertNotIn("bucket", printed)
        self.run_script(
            f"a: INSERT INTO m VALUES ({START + 400 * DAY}, 0, 1)\na: CALL refresh_continuous_aggregate('hours', NULL,"
            " NULL)\n"
        )
        printed, _ = self.roll("hours", "--by", "year", "--times", "s", "--from", "2025-01-01")
        self.assertIn("cut 2025: up to the watermark 2025-02-04 01:00", printed)
        # A real-time aggregate shows what is above its watermark.
        printed, said = self.roll("days", "--by", "year", "--times", "s")
        self.assertNotIn("cut", printed)
        self.assertEqual(printed.splitlines()[-1].split(), ["2025", "1"])
        self.assertIn("mean is left out: an average is added up by a count of the same values", said)

    def test_has_the_texts_scales_and_times_of_the_folder(self) -> None:
        Names.read(self.folder).remember([("dev", 'pump "a"')], {"v": 2}, "s")
        self.run_script("a: DELETE FROM m WHERE dev = 0\na: CALL refresh_continuous_aggregate('hours', NULL, NULL)\n")
        printed, _ = self.roll("hours", "--by", "year", "--json", "--fractions")
        row = json.loads(printed.splitlines()[0])
        v = [v for _, dev, v in self.rows if dev == 1 and v is not None]
        self.assertEqual((row["dev"], row["year"], row["c"]), ('pump "a"', "2024-01-01T00:00:00Z", len(v)))
        self.assertAlmostEqual(row["s"], sum(v) / 100)
        self.assertEqual(Fraction(row["mean_fraction"]), Fraction(sum(v), len(v) * 100))
        self.assertNotIn("s_fraction", row)
        printed, _ = self.roll("hours", "--by", "year", "--scale", "s=0")
        self.assertIn(f"{sum(v)}", printed)

    def test_refuses_what_it_cannot_add_up(self) -> None:
        cases = [
            (["hours", "--by", "month"], "--times s, ms or us"),
            (["m", "--by", "month", "--times", "s"], "isn't an aggregate"),
            (["hours", "--by", "month", "--times", "s", "--zone", "Mars"], "no time zone"),
            (["hours", "--by", "month", "--times", "s", "--scale", "x=1"], "no such column"),
            (["hours", "--by", "month", "--times", "s", "--from", "soon"], "is no time"),
            (["hours\na: DELETE FROM m", "--by", "month", "--times", "s"], "has a control character"),
            (["hours; DELETE FROM m", "--by", "month", "--times", "s"], "is no name"),
        ]
        for words, wanted in cases:
            with self.subTest(words=words), self.assertRaisesRegex(Trouble, wanted):
                self.roll(*words)
        self.assertEqual((self.folder / "tsctl.journal").read_bytes(), self.journal)
