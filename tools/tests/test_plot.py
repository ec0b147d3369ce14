"""Pictures of `tsq plot`, read back from their SVG, and what is refused."""
from __future__ import annotations

import os
import re
import subprocess
import sys
import tempfile
import unittest
from collections.abc import Iterator
from pathlib import Path
from unittest import mock
from xml.etree import ElementTree

from tests.serving import NEEDS
from tsqlib import drawing, plot, programs
from tsqlib.main import options_of
from tsqlib.messages import Trouble
from tsqlib.moments import Clock, zone_of
from tsqlib.names import Names
from tsqlib.picture import Panel, Picture

TSQ = Path(__file__).resolve().parents[1] / "tsq"
SVG = "{http://www.w3.org/2000/svg}"
PNG = b"\x89PNG\r\n\x1a\n"
DAY = 86400
HAS_MATPLOTLIB = plot.rendered(Picture("", "", [Panel("", [])], 0, 1)) is not None
# A tsq that finds no other Python.
WITHOUT = f"""import sys
sys.path.insert(0, {str(TSQ.parent)!r})
from tsqlib import main, plot
plot.other_pythons = lambda: []
sys.exit(main.main(sys.argv[1:]))"""
# Two days of minutes, of which the first was dropped, with one late row.
START = 1704067200
SETUP = f"""a: CREATE TABLE m (time BIGINT NOT NULL, dev BIGINT, v BIGINT)
a: SELECT create_hypertable('m', 'time', chunk_time_interval => {DAY})
a: CREATE MATERIALIZED VIEW c WITH (timescaledb.continuous) AS SELECT time_bucket(60, time) AS minute, dev, count(*) \
AS n, avg(v) AS mean, max(v) AS high, max(time) AS last FROM m GROUP BY minute, dev WITH NO DATA
"""


def row(minute: int, dev: int, v: int | str) -> str:
    return f"({START + 60 * minute}, {dev}, {v})"


def fill() -> Iterator[str]:
    """Statements that fill the table."""
    for begin in range(0, 5000, 500):
        rows = [row(minute, dev, 9_000_000_000_000 + minute) for minute in range(begin, begin + 500) for dev in (1, 2)]
        yield f"a: INSERT INTO m VALUES {', '.join(rows)}"
    yield "a: CALL refresh_continuous_aggregate('c', NULL, NULL)"
    yield f"a: SELECT drop_chunks('m', {START + DAY})"
    yield f"a: INSERT INTO m VALUES {row(2500, 1, 5)}"


class Svg:
    """An SVG that matplotlib has written."""

    def __init__(self, content: bytes) -> None:
        self.root = ElementTree.fromstring(content)

    def texts(self) -> list[str]:
        return ["".join(text.itertext()) for text in self.root.iter(f"{SVG}text")]

    def names(self) -> set[str]:
        """The names that drawing gave to what it drew."""
        return {it.get("id", "") for it in self.root.iter(f"{SVG}g")}

    def path(self, name: str) -> ElementTree.Element:
        group = next(it for it in self.root.iter(f"{SVG}g") if it.get("id") == name)
        return next(it for it in group.iter(f"{SVG}path") if it.get("d"))

    def places(self, name: str) -> list[float]:
        """From left to right, where a path has points."""
        return [float(x) for x in re.findall(r"[ML] ([-\d.]+) [-\d.]+", self.path(name).get("d", ""))]

    def style(self, name: str) -> str:
        return self.path(name).get("style", "").lower()


@NEEDS
class OverHistory(unittest.TestCase):
    """A folder with two days of minutes, of which the first was dropped, and a late row."""

    journal: bytes

    @classmethod
    def setUpClass(cls) -> None:
        with tempfile.TemporaryDirectory() as folder:
            programs.call(["run"], (SETUP + "".join(f"{line}\n" for line in fill())).encode(), folder)
            cls.journal = (Path(folder) / "tsctl.journal").read_bytes()

    def setUp(self) -> None:
        folder = tempfile.TemporaryDirectory()
        self.addCleanup(folder.cleanup)
        self.folder = Path(folder.name)
        (self.folder / "tsctl.journal").write_bytes(self.journal)

    def picture(self, *words: str) -> Picture:
        """What `tsq plot` would draw."""
        arguments = options_of(["plot", "--in", str(self.folder), *words])
        names = Names.read(self.folder)
        clock = Clock(arguments.times or names.times, zone_of(arguments.zone))
        return plot.picture_of(arguments, plot.asked(arguments, names, clock), names, clock)

    def plot(self, *words: str) -> tuple[int, str, str]:
        """The status of `tsq plot`, and what it has printed and said."""
        done = subprocess.run(
            [sys.executable, TSQ, "plot", *words], cwd=self.folder, capture_output=True, text=True, timeout=120
        )
        return done.returncode, done.stdout, done.stderr


class StatementsTest(OverHistory):
    """Pieces of statements on the command line have dates, as statements of scripts do."""

    def test_dates_in_tests_and_queries(self) -> None:
        begin = f"{START + DAY + 3600}"
        cases = [
            (["c", "--where", "minute >= '2024-01-02 01:00'"], ["c", "--where", f"minute >= {begin}"]),
            (["c", "--where", "minute >= '2024-01-02 02:00+01' AND minute < '2024-01-03'"],
             ["c", "--where", f"minute >= {begin} AND minute < {START + 2 * DAY}"]),
            (["--query", "SELECT time_bucket('1 hour', minute) AS h, sum(n) FROM c WHERE dev = 'pump' GROUP BY h"],
             ["--query", "SELECT time_bucket(3600, minute) AS h, sum(n) FROM c WHERE dev = 1 GROUP BY h"]),
        ]  # fmt: skip
        Names.read(self.folder).remember([("dev", "pump")])
        for words, numbers in cases:
            with self.subTest(words=words):
                found, wanted = self.picture(*words, "--times", "s"), self.picture(*numbers, "--times", "s")
                self.assertEqual(found.panels, wanted.panels)
                self.assertEqual((found.start, found.end), (wanted.start, wanted.end))
        Names.read(self.folder).remember(times="s")
        self.assertEqual(self.picture(*cases[0][0]).start, self.picture(*cases[0][1]).start)

    def test_queries_have_the_scales_of_the_folder(self) -> None:
        query = "SELECT time_bucket(86400, minute) AS day, max(high) AS high, sum(n) AS n FROM c GROUP BY day"
        plain = self.picture("--query", query, "--times", "s").panels
        Names.read(self.folder).remember(scales={"v": 3}, times="s")
        scaled = self.picture("--query", query).panels
        self.assertEqual([panel.label for panel in plain], [panel.label for panel in scaled])

        def values(panels: list[Panel]) -> list[list[float]]:
            return [[value for line in panel.lines for piece in line.pieces for _, value in piece] for panel in panels]

        high, count = values(plain)
        self.assertEqual(values(scaled), [[value / 1000 for value in high], count])

    def test_averages_that_are_left_out_of_a_roll(self) -> None:
        words = self.picture("c", "--by", "day", "--times", "s").words
        self.assertIn("mean is left out: c has no count of its values", [word.text for word in words])

    def test_dates_that_are_none(self) -> None:
        for words, wanted in (
            (["c", "--where", "minute >= '2024-01-02'"], "With `--times s`, `ms` or `us`, `tsq` reads dates"),
            (["c", "--times", "s", "--where", "minute >= 'noon'"], "is no date, such as"),
            (["--times", "s", "--query", "SELECT time_bucket('1 month', minute) AS h, sum(n) FROM c GROUP BY h"],
             "has no fixed length"),
        ):  # fmt: skip
            with self.subTest(words=words), self.assertRaisesRegex(Trouble, re.escape(wanted)):
                self.picture(*words)


@unittest.skipUnless(HAS_MATPLOTLIB, "no python3 here has matplotlib")
class SvgTest(OverHistory):
    def drawn(self, *words: str) -> Svg:
        """The picture, drawn."""
        files = plot.rendered(self.picture(*words))
        assert files
        self.assertEqual(files["png"][:8], PNG)
        return Svg(files["svg"])

    def test_marks_what_is_stale_and_what_was_dropped(self) -> None:
        svg = self.drawn("c", "--times", "s", "--columns", "mean")
        texts = svg.texts()
        self.assertIn("stale: 2024-01-02 17:40..17:41", texts)
        self.assertIn("rows dropped, shown as of the last refresh: 2024-01-01..2024-01-02", texts)
        self.assertIn("watermark: 2024-01-04 11:20", texts)
        self.assertIn("minute, UTC", texts)
        self.assertEqual({"panel1-stale1", "panel1-dropped1", "panel1-watermark", "stale1-arrow"} - svg.names(), set())
        places = svg.places("panel1-stale1")
        self.assertGreaterEqual(max(places) - min(places), 3)
        self.assertIn(drawing.SHADES["stale"]["facecolor"], svg.style("panel1-stale1"))
        # A stale range is told from a dropped one by its place too.
        self.assertLess(max(svg.places("panel1-dropped1")), min(places))

    def test_labels_of_values_and_times_differ_and_are_whole(self) -> None:
        svg = self.drawn("c", "--times", "s", "--columns", "mean", "--from", "2024-01-03", "--to", "2024-01-03 06:00")
        values = [text for text in svg.texts() if text.startswith("90000000")]
        self.assertGreater(len(values), 3)
        self.assertEqual(len(set(values)), len(values))
        hours = [text for text in svg.texts() if re.fullmatch(r"\d\d:\d\d", text)]
        self.assertEqual((hours[0], len(set(hours))), ("00:00", len(hours)))

    def test_colors_are_those_of_okabe_and_ito_and_columns_have_dashes(self) -> None:
        svg = self.drawn("c", "--times", "s", "--columns", "mean,high,n")
        self.assertEqual({"panel1-line4", "panel2-line2"} - svg.names(), set())
        self.assertNotIn("panel3-line1", svg.names())
        styles = [svg.style(f"panel1-line{number}") for number in (1, 2, 3, 4)]
        self.assertEqual(["#0072b2" in style for style in styles], [True, True, False, False])
        self.assertEqual(["stroke-dasharray" in style for style in styles], [False, True, False, True])
        self.assertIn("#0072b2", svg.style("panel2-line1"))
        self.assertTrue({"mean, dev 1", "high, dev 2", "dev 1", "dev 2", "mean, high", "n"} <= set(svg.texts()))

    def test_draws_rolls_and_queries(self) -> None:
        svg = self.drawn("c", "--times", "s", "--by", "day", "--zone", "Europe/Berlin", "--columns", "n")
        self.assertIn("day, Europe/Berlin", svg.texts())
        self.assertTrue(any(text.startswith("cut 2024-01-04: up to the watermark") for text in svg.texts()))
        query = "SELECT time_bucket(3600, minute) AS hour, sum(n) AS n FROM c GROUP BY hour"
        svg = self.drawn("--query", query, "--times", "s")
        self.assertIn("hour, UTC", svg.texts())
        self.assertIn("stale: 2024-01-02 17:40..17:41", svg.texts())
        self.assertIn("panel1-dropped1", svg.names())

    def test_titles_and_labels_have_room(self) -> None:
        query = "SELECT time_bucket('1 day', minute) AS day, max(high) AS the_highest FROM c WHERE dev = 1 GROUP BY day"
        texts = self.drawn("--query", query, "--times", "s").texts()
        self.assertIn(query[: query.rindex(" ", 0, 91)], texts)
        picture = Picture("t", "x", [Panel("v", [])], START + 68 * DAY, START + 95 * DAY, unit="s")
        files = plot.rendered(picture)
        assert files
        days = [text for text in Svg(files["svg"]).texts() if re.fullmatch(r"2024-\d\d-\d\d", text)]
        self.assertIn("2024-04-01", days)
        self.assertNotIn("2024-03-29", days)
        self.assertNotIn("2024-03-31", days)

    def test_has_the_texts_scales_and_times_of_the_folder(self) -> None:
        Names.read(self.folder).remember([("dev", "pump $a"), ("dev", "_b")], {"v": 3}, "s")
        svg = self.drawn("c", "--columns", "mean", "--to", "2024-01-02")
        self.assertTrue({"dev pump $a", "dev _b", "minute, UTC"} <= set(svg.texts()), svg.texts())
        self.assertTrue(any(text.startswith("900000000") and len(text) <= 14 for text in svg.texts()))
        svg = self.drawn("c", "--columns", "mean", "--key", "dev=pump $a")
        self.assertEqual({"panel1-line1", "panel1-line2"} & svg.names(), {"panel1-line1"})

    def test_dates_are_labeled_by_the_span(self) -> None:
        script = SETUP.replace(" c ", " long ").replace(" m ", " n ").replace("'m'", "'n'") + "".join(
            f"a: INSERT INTO n VALUES ({START + 86400 * day}, 1, {day})\n" for day in range(0, 4000, 40)
        ) + "a: CALL refresh_continuous_aggregate('long', NULL, NULL)\n"  # fmt: skip
        programs.call(["run"], script.encode(), self.folder)
        cases = [
            ((), r"\d{4}"),
            (("--to", "2024-12-01"), r"\d{4}-\d\d"),
            (("--to", "2024-03-01"), r"\d{4}-\d\d-\d\d"),
        ]
        for words, form in cases:
            with self.subTest(form=form):
                texts = self.drawn("long", "--columns", "n", "--times", "s", *words).texts()
                labels = [text for text in texts if re.fullmatch(form, text)]
                self.assertTrue(3 <= len(labels) == len(set(labels)), texts)


class CommandTest(OverHistory):
    def refused(self, words: list[str], wanted: str) -> None:
        """That these words are refused in these, and nothing is drawn."""
        with mock.patch.object(plot, "rendered", side_effect=lambda picture: {"png": b"", "svg": b""}):
            with self.assertRaises(Trouble) as raised:
                arguments = options_of(["plot", "--in", str(self.folder), *words])
                arguments.call(arguments)
        self.assertIn(wanted, str(raised.exception))

    def test_changes_nothing_whatever_it_is_asked(self) -> None:
        cases = [
            (["c", "--where", "minute >= 0\nplot: DELETE FROM m", "--columns", "n"], "has a control character"),
            (["c", "--where", "minute >= 0\ra: DELETE FROM m"], "has a control character"),
            (["c\na: DELETE FROM m"], "has a control character"),
            (["c; DELETE FROM m"], "is no name"),
            (["c", "--columns", "n", "--out", "x'\nsystem(\"touch pwned\")\n#"], "has a control character"),
            (["--query", "DELETE FROM m"], "--query is a SELECT"),
            (["--query", "SELECT * FROM c\na: DELETE FROM m"], "has a control character"),
            (["--query", "SELECT drop_chunks('m', 99999999999)"], "--query is a SELECT"),
            (["--query", "SELECT create_hypertable('c', 'time', chunk_time_interval => 1)"], "--query is a SELECT"),
        ]
        for words, wanted in cases:
            with self.subTest(words=words):
                self.refused(words, wanted)
        self.assertEqual((self.folder / "tsctl.journal").read_bytes(), self.journal)
        self.assertEqual(os.listdir(self.folder), ["tsctl.journal"])

    def test_leaves_no_file_if_it_fails(self) -> None:
        programs.call(["run"], b"""a: CREATE TABLE z (time BIGINT NOT NULL, v BIGINT)
a: SELECT create_hypertable('z', 'time', chunk_time_interval => 100)
a: INSERT INTO z VALUES (1, NULL)
a: CREATE MATERIALIZED VIEW nulls WITH (timescaledb.continuous) AS SELECT time_bucket(10, time) AS b, max(v) FROM z \
GROUP BY b
a: CREATE MATERIALIZED VIEW empty WITH (timescaledb.continuous) AS SELECT time_bucket(10, time) AS b, max(v) FROM z \
GROUP BY b WITH NO DATA
""", self.folder)  # fmt: skip
        cases = [
            (["nulls"], "there is no value to draw: each is NULL"),
            (["empty"], "empty shows no rows: it has none before its first refresh"),
            (["m"], "m isn't an aggregate; aggregates are c, nulls, empty"),
            (["q"], "q isn't there"),
            (["c", "--columns", "v"], "no column `v` to draw; there are n, mean, high"),
            (["c", "--columns", "last"], "`last` is a time"),
            (["c", "--scale", "maen=1"], "--scale maen=1: no such column is drawn"),
            (["c", "--key", "host=1"], "no key `host`; there are dev"),
            (["c", "--key", "dev=3"], "no row has dev 3"),
            (["c", "--key", "dev=x"], "--key dev=x: wanted is a whole number, null, or a text"),
            (["c", "--by", "month"], "--times tells what times are"),
            (["c", "--from", "2024-01-01"], "--times tells what times are"),
            (["c", "--times", "s", "--zone", "Mars/Base"], "there is no time zone"),
            (["c", "--where", "dev = 1"], "FAULT E08 no_column"),
            (["c", "--columns", "n", "--out", "/nodir/x"], "/nodir: No such file or directory"),
        ]
        for words, wanted in cases:
            with self.subTest(words=words):
                self.refused(words, wanted)
        self.assertEqual(os.listdir(self.folder), ["tsctl.journal"])

    @unittest.skipUnless(HAS_MATPLOTLIB, "no python3 here has matplotlib")
    def test_writes_two_files_while_another_process_writes(self) -> None:
        run = subprocess.Popen(
            [programs.tsctl(), "run"], cwd=self.folder, stdin=subprocess.PIPE, stdout=subprocess.PIPE
        )
        assert run.stdin and run.stdout
        run.stdin.write(b"w: INSERT INTO m VALUES (1704300000, 7, 1)\n")
        run.stdin.flush()
        run.stdout.readline()
        self.assertEqual(self.plot("c", "--columns", "n", "--out", "it"), (0, "it.png\nit.svg\n", ""))
        run.communicate()
        self.assertEqual(sorted(os.listdir(self.folder)), ["it.png", "it.svg", "tsctl.journal"])

    def test_says_how_to_get_what_draws(self) -> None:
        done = subprocess.run([sys.executable, "-E", "-S", "-c", WITHOUT, "plot", "c", "--columns", "n"],
                              cwd=self.folder,
                              capture_output=True, text=True)  # fmt: skip
        self.assertEqual((done.returncode, done.stdout), (3, ""), done.stderr)
        self.assertIn("apt-get install python3-matplotlib", done.stderr)
        self.assertEqual(os.listdir(self.folder), ["tsctl.journal"])
