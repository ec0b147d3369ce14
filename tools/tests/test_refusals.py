"""What a refusal says: the line, a caret, and what to write instead."""
from __future__ import annotations

import tempfile
import unittest

from tests.serving import NEEDS
from tsqlib.asking import answered
from tsqlib.messages import Trouble
from tsqlib.programs import Program
from tsqlib.refusals import HINTS, around, explanation, instead_of, meanings, rows_instead
from tsqlib.replies import Reply
from tsqlib.schema import Output, Schema
from tsqlib.statements import Line

# A statement, the place of its refusal by tsctl, and a part of the row that fits.
CASES = (
    ("E05", "SELECT * FROM m ORDER BY v", "ORDER", "`ORDER BY`"),
    ("E05", "SELECT * FROM m LIMIT 5", "LIMIT", "`LIMIT`"),
    ("E05", "SELECT * FROM m JOIN n", "JOIN", "`JOIN`"),
    ("E05", "SELECT * FROM (SELECT", "(", "`JOIN`"),
    ("E05", "SELECT time, v FROM m", "time", "a list of columns"),
    ("E05", "SELECT count(*) FROM m", "count", "an aggregate without a bucket"),
    ("E05", "SELECT time_bucket(10, time), count(*), dev FROM m GROUP BY 1", "dev", "an aggregate before a key"),
    ("E05", "SELECT * FROM m WHERE v = 1 OR v = 2", "OR", "`OR`"),
    ("E05", "SELECT * FROM m WHERE v IN (1, 2)", "IN", "`IN (..)`"),
    ("E05", "SELECT * FROM m WHERE v BETWEEN 1 AND 2", "BETWEEN", "`BETWEEN`"),
    (
        "E05",
        "SELECT time_bucket(10, time), count(*) FROM m GROUP BY time_bucket(10, time)",
        "(10, time)$",
        "`GROUP BY time_bucket",
    ),
    (
        "E04",
        "SELECT time_bucket('1 hour', time), count(*) FROM m GROUP BY 1",
        "'1 hour'",
        "`time_bucket('1 hour', time)`",
    ),
    (
        "E04",
        "SELECT time_bucket('1 month', time), count(*) FROM m GROUP BY 1",
        "'1 month'",
        "`time_bucket('1 month', time)`",
    ),
    ("E04", "INSERT INTO m VALUES ('2026-10-25', 1)", "'2026-10-25'", "as a value"),
    ("E05", "CREATE TABLE m (time TIMESTAMPTZ)", "TIMESTAMPTZ", "other types"),
    ("E05", "SELECT create_hypertable('m', 'time')", ")", "without an interval"),
    ("E05", "INSERT INTO m VALUES (1, 2.5)", ".5", "`1.5`"),
    ("E05", "SELECT * FROM m WHERE v = w", "w$", "`WHERE v = w`"),
    ("E04", "SELECT \"v\" FROM m", '"v"', "in double quotes"),
    ("E05", "UPDATE m SET v = 1", "UPDATE", "`UPDATE`"),
    ("E05", "DROP TABLE m", "DROP", "`DROP TABLE`"),
    ("E05", "CREATE TABLE IF NOT EXISTS m (time BIGINT)", "NOT", "`IF NOT EXISTS`"),
    ("E05", "SHOW TABLES", "SHOW", "`SHOW TABLES`"),
    ("E05", "CALL refresh_continuous_aggregate(c, 1, 2)", "c,", "a name without quotes"),
    ("E05", "COMMIT; BEGIN", "BEGIN", "two statements on a line"),
    ("E05", "BEGIN TRANSACTION", "TRANSACTION", "`BEGIN TRANSACTION`"),
    ("E04", "SELECT /* all */ * FROM m", "/*", "`/* .. */`"),
)


def refusal(code: str, text: str, place: int | None = None) -> Reply:
    tail = f" at {place}" if place else " @4"
    return Reply(Line(3, "a", text), [f"a: FAULT {code} word{tail}"])


def schema() -> Schema:
    made = Schema()
    made.outputs = {"m": Output(["time", "v"]), "c": Output(["b", "n"], is_view=True)}
    made.sources = {"c": "m"}
    return made


class InsteadTest(unittest.TestCase):
    def test_the_row_that_fits_is_found(self) -> None:
        for code, statement, part, wanted in CASES:
            text = f"a: {statement}"
            place = text.rindex(part[:-1]) if part.endswith("$") else text.index(part)
            found = instead_of(refusal(code, text, place + 1), schema())
            self.assertIn(wanted, found or "", statement)

    @NEEDS
    def test_the_places_are_those_of_tsctl(self) -> None:
        with tempfile.TemporaryDirectory() as folder, Program(folder) as program:
            for code, statement, _, wanted in CASES:
                reply = program.ask(f"a: {statement}".encode())
                self.assertEqual((reply.fault() or ("",))[0], code, statement)
                self.assertIn(wanted, instead_of(reply, schema()) or "", statement)

    def test_tests_that_an_aggregate_does_not_take(self) -> None:
        for statement, wanted in (
            ("SELECT * FROM c WHERE n = 1", "filtered by a key"),
            ("SELECT time_bucket(20, b), sum(n) FROM c WHERE b > 1 GROUP BY 1", "a roll-up bounded in time"),
        ):
            self.assertIn(wanted, instead_of(refusal("E08", f"a: {statement}"), schema()) or "")
        self.assertIsNone(instead_of(refusal("E08", "a: SELECT * FROM m WHERE w = 1"), schema()))

    def test_each_hint_has_its_row_in_the_page(self) -> None:
        whats = [what for what, _ in rows_instead()]
        parts = {part for _, part in HINTS} | {"filtered by a key", "a roll-up bounded in time"}
        self.assertEqual([part for part in sorted(parts) if not any(part in what for what in whats)], [])

    def test_each_number_has_a_meaning(self) -> None:
        self.assertTrue({f"E{number:02}" for number in range(1, 31)} <= set(meanings()))


class LinesTest(unittest.TestCase):
    def test_the_caret_is_under_the_place(self) -> None:
        lines = explanation(refusal("E05", "a: SELECT\t* FROM m ORDER BY time", 20))
        self.assertEqual(lines[:2], ["  3 | a: SELECT * FROM m ORDER BY time", "    |                    ^"])

    def test_a_long_line_is_cut_around_the_place(self) -> None:
        text = "x" * 200 + "HERE" + "y" * 200
        shown, caret = around(text, 201)
        self.assertEqual((len(shown), shown[caret - 1 : caret + 3]), (106, "HERE"))


class AskedTest(unittest.TestCase):
    def test_a_refusal_of_a_question_names_no_session(self) -> None:
        reply = Reply(Line(1, "tsq", "tsq: SELECT"), ["tsq: FAULT E05 syntax at 12"])
        with self.assertRaisesRegex(Trouble, r"^FAULT E05 syntax at 12\n  \| tsq: SELECT\n"):
            answered(reply)


if __name__ == "__main__":
    unittest.main()
