"""Scripts: which lines tsctl is given."""
from __future__ import annotations

import io
import unittest

from tsqlib.messages import Trouble
from tsqlib.scripts import Script, given_from, given_of, is_whole, lines_from, looks_like_rest, removes_rows
from tsqlib.statements import MOST_LINE, tokens_in

WHOLE = (
    "SELECT * FROM m", "select * from m where v = 7", "BEGIN", "COMMIT", "TICK 5", "DELETE FROM m",
    "INSERT INTO m VALUES (1, 2)",
    "SELECT time_bucket(10, time), count(*) FROM m GROUP BY 1", "CALL refresh_continuous_aggregate('c', NULL, NULL)",
    "CREATE TABLE m (time BIGINT NOT NULL)", "REFRESH CUT 'c', NULL, NULL",
    "SELECT create_hypertable('m', 'time', chunk_time_interval => 7)",
    "ALTER MATERIALIZED VIEW c SET (timescaledb.materialized_only = true)", "no such statement",
    "SELECT * FROM m WHERE v IS NULL",
    "CREATE MATERIALIZED VIEW c WITH (timescaledb.continuous) AS SELECT time_bucket(1, t), count(*) FROM m GROUP BY 1",
)  # fmt: skip
OPEN = (
    "", "SELECT * FROM", "SELECT", "SELECT *", "DELETE", "DELETE FROM m WHERE", "DELETE FROM m WHERE v =",
    "INSERT INTO m",
    "INSERT INTO m VALUES", "INSERT INTO m VALUES (1, 2),", "INSERT INTO m VALUES (1,", "CREATE TABLE m",
    "CREATE TABLE m (time BIGINT",
    "SELECT time_bucket(10, time), count(*) FROM m", "CREATE MATERIALIZED VIEW c WITH (timescaledb.continuous) AS",
    "ALTER MATERIALIZED VIEW c", "CALL refresh_continuous_aggregate('c', NULL,", "SELECT * FROM m WHERE v IS",
    "SELECT * FROM m WHERE v IS NOT",
)  # fmt: skip


def texts(script: str) -> list[tuple[int, str]]:
    return [(line.number, line.raw.decode()) for line in given_of(script.encode())]


class LooksTest(unittest.TestCase):
    def test_what_may_end_here(self) -> None:
        for text in WHOLE:
            self.assertTrue(is_whole(text.encode()), text)
        for text in OPEN:
            self.assertFalse(is_whole(text.encode()), text)

    def test_what_removes_rows(self) -> None:
        for text in ("DELETE FROM m", " delete from m;", "SELECT drop_chunks('m', 5)", "select DROP_CHUNKS ("):
            self.assertTrue(removes_rows(text.encode()), text)
        for text in ("SELECT * FROM drop_chunks", "INSERT INTO delete VALUES (1)", ""):
            self.assertFalse(removes_rows(text.encode()), text)

    def test_what_looks_like_a_rest(self) -> None:
        for text in ("WHERE v = 7", "AND x", "(1, 2)", ", (3, 4)", "FROM m", "= 5", "with no data", "NO DATA", ";"):
            self.assertTrue(looks_like_rest(text.encode()), text)
        for text in ("no session", "SELECT * FROM m", "A: SELECT", "\u00e9", "", "/* a */", "whereas"):
            self.assertFalse(looks_like_rest(text.encode()), text)


class TokensTest(unittest.TestCase):
    def test_tokens(self) -> None:
        for text, wanted in (
            ("a:x>=-5", ["a", ":", "x", ">=", "-5"]),
            ("v = 'it''s' -- 'not", ["v", "=", "'it''s'"]),
            ("v = 'a -- b' AND", ["v", "=", "'a -- b'", "AND"]),
            ("x 'open", ["x", "'", "open"]),
            ("a<>b!=c=>d", ["a", "<>", "b", "!=", "c", "=>", "d"]),
            ("\t 12x", ["12", "x"]),
            ("", []),
        ):
            self.assertEqual([token.text for token in tokens_in(text)], wanted)

    def test_places_are_those_of_the_text(self) -> None:
        text = "a: SELECT  'x y',-7\r"
        for token in tokens_in(text, 2):
            self.assertEqual(text[token.start : token.end], token.text)


class ScriptTest(unittest.TestCase):
    def test_whole_lines_stay_as_they_are(self) -> None:
        script = (
            "a: DELETE FROM m\r\n\n-- x\na: SELECT * FROM m -- WHERE\nb: COMMIT; BEGIN\nSELECT 1\na:\na: DELETE FROM m"
        )
        wanted = [
            (1, "a: DELETE FROM m\r"),
            (4, "a: SELECT * FROM m -- WHERE"),
            (5, "b: COMMIT; BEGIN"),
            (6, "SELECT 1"),
            (7, "a:"),
            (8, "a: DELETE FROM m"),
        ]
        self.assertEqual(texts(script), wanted)

    def test_statements_over_lines_are_joined(self) -> None:
        for script, wanted in (
            ("a: DELETE FROM m\n  WHERE v = 7;\n", [(1, "a: DELETE FROM m WHERE v = 7;")]),
            (
                "\na: DELETE FROM m -- all?\n\n-- no\nWHERE v = 7 ; -- end\nb: BEGIN",
                [(2, "a: DELETE FROM m WHERE v = 7 ;"), (6, "b: BEGIN")],
            ),
            ("a: DELETE FROM m\nv = 7;", [(1, "a: DELETE FROM m v = 7;")]),
            ("a:\nSELECT * FROM m;", [(1, "a: SELECT * FROM m;")]),
            (
                (
                    "a: CREATE MATERIALIZED VIEW c WITH (x) AS\nSELECT time_bucket(1, t), count(*)\nFROM m GROUP BY"
                    " 1\nWITH NO DATA;"
                ),
                [
                    (
                        1,
                        (
                            "a: CREATE MATERIALIZED VIEW c WITH (x) AS SELECT time_bucket(1, t), count(*) FROM m GROUP"
                            " BY 1 WITH NO DATA;"
                        ),
                    )
                ],
            ),
            (
                "a: INSERT INTO m VALUES\n('a -- b'), -- c\n('d;');",
                [(1, "a: INSERT INTO m VALUES ('a -- b'), ('d;');")],
            ),
        ):
            self.assertEqual(texts(script), wanted)

    def test_what_would_run_in_part_is_refused(self) -> None:
        for script in (
            "a: DELETE FROM m;\nWHERE v = 7;\n",
            "a: DELETE FROM m\nWHERE v = 7\na: BEGIN\n",
            "a: DELETE FROM m\nWHERE v = 7",
            "a: SELECT drop_chunks('m',\n older_than => 5)\n",
            "WHERE v = 7;",
            "a: DELETE FROM m\nWHERE v = 7; a: BEGIN\n",
        ):
            with self.assertRaisesRegex(Trouble, "nothing was run|ends with"):
                given_of(script.encode())

    def test_a_session_that_is_misspelt_goes_on_with_nothing(self) -> None:
        self.assertEqual(texts("a: BEGIN\nA: COMMIT"), [(1, "a: BEGIN"), (2, "A: COMMIT")])


class StreamTest(unittest.TestCase):
    def test_whole_lines_are_given_at_once_but_those_that_remove_rows(self) -> None:
        reader = Script(is_stream=True)
        for number, line, wanted in (
            (1, "a: SELECT * FROM m", 1), (2, "a: DELETE FROM m", 0), (3, "b: BEGIN", 2),
            (4, "a: SELECT drop_chunks('m', 5)", 0),
            (5, "", 0), (6, "a: CREATE TABLE m", 1), (7, "(time BIGINT", 0), (8, ");", 1), (9, "a: DELETE FROM m;", 1),
        ):  # fmt: skip
            self.assertEqual(len(list(reader.add(number, line.encode()))), wanted, line)

    def test_a_rest_ends_it(self) -> None:
        with self.assertRaisesRegex(Trouble, "line 2 .* has been run"):
            list(given_from(io.BytesIO(b"a: SELECT * FROM m\nWHERE v = 7;\n")))

    def test_lines_that_are_too_long_are_cut(self) -> None:
        stream = io.BytesIO(b"x" * 500_000 + b"\n" + b"y\n" + b"z" * MOST_LINE)
        self.assertEqual([len(line) for line in lines_from(stream)], [MOST_LINE + 1, 1, MOST_LINE])


if __name__ == "__main__":
    unittest.main()
