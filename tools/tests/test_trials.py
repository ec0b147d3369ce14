"""The parts of trials/ that a trial can't check by itself."""
import contextlib
import datetime
import io
import json
import random
import shutil
import sys
import tempfile
import unittest
from collections import Counter
from collections.abc import Iterator
from importlib.machinery import SourceFileLoader
from importlib.util import module_from_spec, spec_from_loader
from pathlib import Path
from types import ModuleType

TRIALS = Path(__file__).resolve().parents[2] / "trials"
sys.path.insert(0, str(TRIALS / "lib"))
import planting  # noqa: E402
from author import Author  # noqa: E402
from bugs import BUGS, Bug  # noqa: E402
from calendar_days import calendar_bucket  # noqa: E402
from coverage import table  # noqa: E402
from crash import Call, crash  # noqa: E402
from forge import Forged, forgeries  # noqa: E402
from history import Span, Test, Width, passes  # noqa: E402
from life import Step, life_text, read_life  # noqa: E402
from lines import read_lines  # noqa: E402
from mistakes import MISTAKES  # noqa: E402
from program import TOP  # noqa: E402
from replay import positions_of  # noqa: E402
from shrink import shrink  # noqa: E402

EPOCH = datetime.datetime(1970, 1, 1)


def seconds(year: int, month: int = 1, day: int = 1) -> int:
    return round((datetime.datetime(year, month, day) - EPOCH).total_seconds())


class Calendar(unittest.TestCase):
    def test_months_and_years_are_those_of_python(self) -> None:
        rng = random.Random(1)
        for _ in range(500):
            time = rng.randrange(seconds(2), seconds(9998))
            date = EPOCH + datetime.timedelta(seconds=time)
            self.assertEqual(calendar_bucket(1, "month", time), seconds(date.year, date.month))
            self.assertEqual(calendar_bucket(1, "year", time), seconds(date.year))

    def test_days_and_weeks_are_counted_from_a_monday(self) -> None:
        monday = seconds(2000, 1, 3)
        week = 604_800
        for count, unit, day in ((1, "day", 86_400), (7, "day", week), (1, "week", week), (3, "week", 3 * week)):
            with self.subTest(count=count, unit=unit):
                self.assertEqual(calendar_bucket(count, unit, monday), monday)
                self.assertEqual(calendar_bucket(count, unit, monday - 1), monday - day)


class Buckets(unittest.TestCase):
    def test_whole_buckets_of_a_width(self) -> None:
        width = Width(10, 3)
        for time, start, start_from, end in ((3, 3, 3, 13), (2, -7, 3, 3), (12, 3, 13, 13), (-8, -17, -7, -7)):
            with self.subTest(time=time):
                self.assertEqual((width.start(time), width.start_from(time), width.end(time)), (start, start_from, end))

    def test_the_first_bucket_is_printed_as_min(self) -> None:
        self.assertEqual(Width(10, 0).text(Span(-(2**62) - 6, 20)), "min..20")

    def test_null_passes_no_comparison(self) -> None:
        for comparison in ("=", "<>", "<", "<=", ">", ">=", "IS NOT NULL"):
            self.assertFalse(passes((None,), Test(0, comparison, 0)))


class Lines(unittest.TestCase):
    def test_what_a_line_is(self) -> None:
        cases = (
            (b"a: BEGIN", "a", None), (b" \ta_1:BEGIN\r", "a_1", None), (b"a: x -- \xe9", "a", None), (b"\xe9", "", 2),
            (b"a : BEGIN", "", 3), (b"A: BEGIN", "", 3), (b"a2345678901234567: x", "", 3), (b"x" * 65_537, "", 1),
        )
        for raw, session, code in cases:
            with self.subTest(raw=raw[:20]):
                line = next(iter(read_lines(raw)))
                self.assertEqual((line.session, line.refused.code if line.refused else None), (session, code))

    def test_blank_lines(self) -> None:
        self.assertEqual(list(read_lines(b"\n \t\n-- a: x\n\r\n   -- \xe9")), [])


class Replies(unittest.TestCase):
    def test_positions_that_a_reply_tells(self) -> None:
        cases: tuple[tuple[str, list[int | None]], ...] = (
            ("COMMIT @4 +1 -0", [3]), ("REFRESH 5 @9 snap 7 0..10", [4, 7, 8]), ("CUT 5 0..10", [4]),
            ("SNAP 5 @6", [6]), ("FINISH 5 @8 snap 6", [7]), ("ANSWER @4 queue 1 rows 0 stale 0", [4]),
            ("FAULT E19 no_refresh @4 finished 2", [4]),
            ("QUEUED", [None]), ("FAULT E05 syntax at 4", []), ("END", []), ("TICK 5 due 1", []), ("POLICY 1 @3", [3]),
        )
        for reply, positions in cases:
            with self.subTest(reply=reply):
                self.assertEqual(positions_of(reply), positions)


class Crashes(unittest.TestCase):
    CALLS = [Call("w", 9, b"frame", 5), Call("s", 0, b"", 0), Call("w", 8, b"\1", 1), Call("o", 0, b"", 7)]

    def test_what_was_synced_stays(self) -> None:
        for seed in range(300):
            image = crash(random.Random(seed), b"12345678\0", self.CALLS[:2])
            self.assertEqual(image.file[:8], b"12345678")
            self.assertLessEqual(len(image.file), 14)

    def test_every_kind_of_image_is_met(self) -> None:
        images = {crash(random.Random(seed), b"12345678\0", self.CALLS) for seed in range(400)}
        gates = {image.file[8:9] for image in images if image.file[9:] == b"frame"}
        self.assertLessEqual({b"\0", b"\1"}, gates)
        self.assertEqual({image.replied for image in images}, {0, 7})


class Lives(unittest.TestCase):
    def test_a_life_is_the_same_as_a_text(self) -> None:
        for seed in range(30):
            life = Author(seed).life()
            self.assertEqual(read_life(life_text(life)), life)

    def test_a_failing_life_becomes_small(self) -> None:
        life = (Step("run", "", (b"a: one", b"a: two 77", b"a: three")), Step("log"), Step("run", "", (b"a: four",)))
        small = shrink(life, lambda it: any(b"two" in line for step in it for line in step.lines), 5)
        self.assertEqual(small, (Step("run", "", (b"a: two 0",)),))


class Forgeries(unittest.TestCase):
    REPLIES = [
        ("a: SELECT * FROM m", "a: ANSWER @3 rows 0 stale 0\n"),
        ("a: SELECT * FROM n", "a: FAULT E06 no_relation @5\n"),
        ("a: INSERT INTO m VALUES (3, 1, 1000001)", "a: COMMIT @6 +1 -0\n"),
    ]

    def forged(self, replies: list[tuple[str, str]]) -> dict[str, Forged]:
        talk = {"name": "a", "replies": [{"line": line, "reply": reply} for line, reply in replies]}
        found = forgeries(random.Random(1), {"sessions": [talk], "start": 3}, 6)
        return {forged.name: forged for forged in found}

    def told(self, forged: Forged) -> list[tuple[str, str]]:
        return [(it["line"], it["reply"]) for it in json.loads(forged.text)["sessions"][0]["replies"]]

    def test_two_answers_turned_around(self) -> None:
        forged = self.forged(self.REPLIES)["with two answers turned around"]
        self.assertEqual(self.told(forged), [self.REPLIES[1], self.REPLIES[0], self.REPLIES[2]])
        self.assertEqual(forged.wanted, "AUDIT NO session 0 reply 1\n")

    def test_another_row(self) -> None:
        forged = self.forged(self.REPLIES)["with another row"]
        self.assertEqual(self.told(forged)[2], ("a: INSERT INTO m VALUES (3, 1, 71000001)", "a: COMMIT @6 +1 -0\n"))
        self.assertEqual(forged.wanted, "AUDIT NO session 0 reply 2\n")

    def test_what_has_neither(self) -> None:
        for reply in ("a: ANSWER @3 queue 1 rows 0 stale 0\n", "a: ANSWER @5 rows 0 stale 0\n", "a: QUEUED\n"):
            with self.subTest(reply):
                forged = self.forged([(self.REPLIES[0][0], reply), self.REPLIES[1]])
                self.assertFalse({"with two answers turned around", "with another row"} & {*forged})


class Coverage(unittest.TestCase):
    def test_what_was_never_met_is_named(self) -> None:
        last = table(Counter({"fault sync of audit": 1, "refusal E01": 3})).splitlines()[-1]
        self.assertIn("Faults of `audit`: pread", last)
        self.assertIn("Where sync stops a run: the header", last)
        self.assertNotIn("Refusals: E01", last)


class Planted(unittest.TestCase):
    def setUp(self) -> None:
        folder = tempfile.TemporaryDirectory()
        self.addCleanup(folder.cleanup)
        self.folder = Path(folder.name)

    def test_each_mistake_applies(self) -> None:
        shutil.copytree(TOP / "trials/lib", self.folder / "lib")
        for mistake in MISTAKES:
            with self.subTest(mistake.name):
                mistake.plant(self.folder / "lib")

    def test_each_bug_applies(self) -> None:
        for bug in BUGS:
            with self.subTest(bug.name):
                self.assertEqual((TOP / "crates" / bug.file).read_text().count(bug.plain), 1)

    def test_all_bugs_apply_together(self) -> None:
        shutil.copy(TOP / "crates.txt", self.folder)
        for file in {bug.file for bug in BUGS} | {"ts_schema/src/lib.rt"}:
            (self.folder / "crates" / file).parent.mkdir(parents=True, exist_ok=True)
            shutil.copy(TOP / "crates" / file, self.folder / "crates" / file)
        planting.plant(BUGS, self.folder)
        texts = "".join(path.read_text() for path in self.folder.glob("crates/*/src/*.rt"))
        numbers = range(planting.BASE + 1, planting.BASE + 1 + len(BUGS))
        self.assertTrue(all(texts.count(f"{planting.CALL} == {number} ") == 1 for number in numbers))

    def test_names_are_names_of_one(self) -> None:
        for names in ([bug.name for bug in BUGS], [mistake.name for mistake in MISTAKES]):
            self.assertEqual(len(names), len({*names}))

    def test_what_a_bug_writes(self) -> None:
        cases = (
            (Bug("", "", "a + b", "a"), "(if f() == 7 { a } else { a + b })"),
            (Bug("", "", "let x = «a»;", "b"), "let x = (if f() == 7 { b } else { a });"),
            (Bug("", "", "go()?;", "stop();"), "if f() == 7 { stop(); } else { go()?; }"),
        )
        for bug, text in cases:
            with self.subTest(text):
                self.assertEqual(bug.planted(7, "f()"), text)

    def test_a_crate_with_a_bug_needs_the_lowest_one(self) -> None:
        for line, wanted in (
            ("one:", "one: ts_schema"), ("one: two", "one: two ts_schema"),
            ("one: ts_schema two", "one: ts_schema two"),
            ("two:", "two:"), ("# one: of", "# one: of"), ("", ""),
        ):
            with self.subTest(line):
                self.assertEqual(planting.with_lowest(line, {"one"}), wanted)

    def test_the_number_of_a_program(self) -> None:
        number = planting.BASE.to_bytes(4, "little")
        other = (planting.BASE + 1).to_bytes(4, "little")
        self.assertEqual(planting.with_number(b"a" + number + b"b", planting.BASE + 1), b"a" + other + b"b")
        for whole in (b"", number * 2):
            with self.assertRaises(planting.kit.NotAsNeeded):
                planting.with_number(whole, 1)


def trial_of(name: str) -> ModuleType:
    """A trial as a module."""
    spec = spec_from_loader(name, SourceFileLoader(name, str(TRIALS / name)))
    assert spec and spec.loader
    found = module_from_spec(spec)
    sys.modules[name] = found
    spec.loader.exec_module(found)
    return found


class MillionRows(unittest.TestCase):
    """A cell that differs, and a row too few or too many, are found."""

    def setUp(self) -> None:
        self.trial = trial_of("million_rows")
        self.rows = [list(row) for row, _ in self.trial.rows_of(200, 1)]

    def differs(self, rows: list[list[str]]) -> bool:
        """Whether rows are found to be others."""
        try:
            with contextlib.redirect_stdout(io.StringIO()):
                self.trial.compare_rows(iter(rows), 200, 1, "it")
        except SystemExit:
            return True
        return False

    def test_rows(self) -> None:
        self.assertFalse(self.differs(self.rows))
        zeros = [[*row[:2], f"{row[2]}0" if row[2] else "", *row[3:]] for row in self.rows]
        self.assertFalse(self.differs(zeros))
        self.assertTrue(self.differs(self.rows[:-1]))
        self.assertTrue(self.differs([*self.rows, self.rows[-1]]))
        for place in range(5):
            changed = [list(row) for row in self.rows]
            changed[77][place] = "2024-02-29" if place == 1 else "1" if changed[77][place] != "1" else ""
            self.assertTrue(self.differs(changed), place)

    def groups(self) -> Iterator[list[str]]:
        """The groups as they are printed."""
        for (minute, device), group in self.trial.groups_of(200, 1).items():
            mean, high = group.mean(), group.high
            yield [minute, device, str(group.count), "" if mean is None else str(mean),
                   "" if high is None else f"{high / 100:.2f}"]  # fmt: skip

    def test_groups(self) -> None:
        groups, found = self.trial.groups_of(200, 1), list(self.groups())
        for exact in (True, False):
            with contextlib.redirect_stdout(io.StringIO()):
                self.trial.compare_groups(iter(found), groups, "it", exact)
            for wrong in (found[1:], [*found, found[0]], [[*found[0][:2], "7", *found[0][3:]], *found[1:]],
                          [[*found[0][:4], "1000"], *found[1:]], [[*found[0][:3], "1/7", found[0][4]], *found[1:]]):
                with self.assertRaises(SystemExit):  # fmt: skip
                    self.trial.compare_groups(iter(wrong), groups, "it", exact)


if __name__ == "__main__":
    unittest.main()
