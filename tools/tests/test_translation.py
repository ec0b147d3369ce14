"""Dates, lengths of time and texts in statements."""
from __future__ import annotations

import tempfile
import unittest
from argparse import Namespace
from pathlib import Path

from tsqlib.intervals import length_of, nanoseconds_of
from tsqlib.messages import Trouble
from tsqlib.names import Names, Unit
from tsqlib.replies import Reply
from tsqlib.schema import Output, Schema
from tsqlib.sent import Sender
from tsqlib.slots import AGE, LENGTH, TIME, VALUE, slots
from tsqlib.statements import Line, tokens_in
from tsqlib.translation import NotSent, Translator
from tsqlib.values import Bad

DAY = 86400
# 2026-10-25 00:00 in UTC.
DATE = 1792886400
NOW = (DATE + 100) * 10**9


def schema() -> Schema:
    """A table `m` of time, dev and v; its aggregate `c`; and `odd`, whose time column is the second one."""
    made = Schema()
    made.outputs = {
        "m": Output(["time", "dev", "v"], frozenset([0]), units=("time", "dev", "v")),
        "odd": Output(["v", "at"], frozenset([1]), units=("v", "at")),
        "c": Output(["b", "dev", "n"], frozenset([0]), 1, 60, True, ("time", "dev", None)),
    }
    made.sources = {"c": "m"}
    return made


class IntervalTest(unittest.TestCase):
    def test_lengths(self) -> None:
        for text, seconds in (
            ("1 hour", 3600), ("90 minutes", 5400), ("1 day 06:30", DAY + 23400), ("2h", 7200), ("1.5 hours", 5400),
            ("00:00:05", 5),
            ("1 week", 7 * DAY), (" 3  DAYS ", 3 * DAY), ("-1 hour", -3600), ("1 hour 1 min 1 sec", 3661), ("0 s", 0),
        ):  # fmt: skip
            self.assertEqual(nanoseconds_of(text), seconds * 10**9, text)
        self.assertEqual(length_of("1.25 s", "ms"), 1250)
        self.assertEqual(length_of("5 us", "us"), 5)

    def test_what_is_no_length(self) -> None:
        for text in (
            "",
            "hour",
            "1",
            "1 month",
            "2 years",
            "1 fortnight",
            "1 hour x",
            "1 hour;",
            "2026-10-25",
            "-",
            "1 . 5 h",
        ):
            with self.assertRaises(Bad, msg=text):
                nanoseconds_of(text)
        with self.assertRaisesRegex(Bad, "whole number of s"):
            length_of("1 ms", "s")


class SlotTest(unittest.TestCase):
    def found(self, text: str) -> list[tuple[str, str, str]]:
        tokens = tokens_in(text)
        return [
            (" ".join(it.text for it in tokens[slot.first : slot.last]), slot.kind, slot.column)
            for slot in sorted(slots(tokens, schema()))
        ]

    def test_places_are_found_by_the_kind_of_statement(self) -> None:
        for text, wanted in (
            ("INSERT INTO m VALUES ('x', 2, NULL), (4, 5, 6)",
             [("'x'", TIME, "time"), ("2", VALUE, "dev"), ("NULL", VALUE, "v"), ("4", TIME, "time"),
              ("5", VALUE, "dev"), ("6", VALUE, "v")]),
            ("INSERT INTO M (dev, TIME) VALUES (1, now() - INTERVAL '1 s')",
             [("1", VALUE, "dev"), ("now ( ) - INTERVAL '1 s'", TIME, "time")]),
            ("INSERT INTO odd VALUES (1, 2)", [("1", VALUE, "v"), ("2", TIME, "at")]),
            ("INSERT INTO nothing VALUES (1, 2)", []),
            ("DELETE FROM m WHERE time >= 'a' AND dev='b'", [("'a'", TIME, "time"), ("'b'", VALUE, "dev")]),
            ("SELECT * FROM m WHERE dev IS NULL AND v <> 7", [("7", VALUE, "v")]),
            ("SELECT * FROM c WHERE b < 'a'", [("'a'", TIME, "time")]),
            ("SELECT time_bucket('1 h', time, '5 m') AS b, sum(v) FROM m WHERE time < 5 GROUP BY b",
             [("'1 h'", LENGTH, ""), ("'5 m'", LENGTH, ""), ("5", TIME, "time")]),
            ("SELECT calendar_bucket(1, 'month', time), count(*) FROM m GROUP BY 1", []),
            ("SELECT create_hypertable('m', 'time', chunk_time_interval => '1 d')", [("'1 d'", LENGTH, "")]),
            ("SELECT drop_chunks('m', 'a')", [("'a'", AGE, "")]),
            ("SELECT drop_chunks('m', older_than => 'a')", [("'a'", AGE, "")]),
            ("CALL refresh_continuous_aggregate('c', 'a', NULL)", [("'a'", TIME, ""), ("NULL", TIME, "")]),
            ("REFRESH CUT 'c', NULL, 'a'", [("NULL", TIME, ""), ("'a'", TIME, "")]),
            ("SELECT add_retention_policy('m', drop_after => '1 d', schedule_interval => 5)",
             [("'1 d'", LENGTH, ""), ("5", LENGTH, "")]),
            ("CREATE MATERIALIZED VIEW d WITH (timescaledb.continuous) AS SELECT time_bucket('1 h', time), sum(v) "
             "FROM m WHERE dev = 'p' GROUP BY 1 WITH NO DATA",
             [("'1 h'", LENGTH, ""), ("'p'", VALUE, "dev")]),
            ("TICK now()", [("now ( )", TIME, "")]),
            ("BEGIN", []), ("INSERT INTO m VALUES (1,", [("1", TIME, "time")]), ("SELECT", []), ("INSERT", []),
            ("REFRESH", []),
        ):  # fmt: skip
            self.assertEqual(self.found(text), wanted, text)


class TranslatorTest(unittest.TestCase):
    def setUp(self) -> None:
        folder = tempfile.TemporaryDirectory()
        self.addCleanup(folder.cleanup)
        self.folder = Path(folder.name)

    def translator(self, unit: Unit | None = "s", texts: bool = True, new: frozenset[str] = frozenset()) -> Translator:
        names = Names.read(self.folder)
        if texts:
            names.remember(texts=[("dev", "pump-a"), ("dev", "it's -- odd")])
        return Translator(schema(), names, unit, new, lambda: NOW)

    def test_what_is_sent(self) -> None:
        translator = self.translator()
        for text, sent in (
            ("a: SELECT * FROM m", "a: SELECT * FROM m"),
            ("a: TICK NOW ( );", f"a: TICK {DATE + 100};"),
            ("a: INSERT INTO m VALUES ('2026-10-25 02:00+02:00', 'pump-a', 5) -- 'x'",
             f"a: INSERT INTO m VALUES ({DATE}, 1, 5) -- 'x'"),
            ("a: INSERT INTO m VALUES ('2026-10-25T00:00:01Z', 'it''s -- odd', 5)",
             f"a: INSERT INTO m VALUES ({DATE + 1}, 2, 5)"),
            ("a:DELETE FROM m WHERE dev=' pump-a 'AND time<DATE'2026-10-25'",
             f"a:DELETE FROM m WHERE dev=1AND time<{DATE}"),
            ("a: SELECT * FROM m WHERE time >= now() - INTERVAL '1 day' + INTERVAL '1 s'",
             f"a: SELECT * FROM m WHERE time >= {DATE + 101 - DAY}"),
            ("a: SELECT drop_chunks('m', INTERVAL '1 day')", f"a: SELECT drop_chunks('m', {DATE + 100 - DAY})"),
            ("a: SELECT drop_chunks('m', older_than => TIMESTAMPTZ '2026-10-25')",
             f"a: SELECT drop_chunks('m', older_than => {DATE})"),
            ("a: CALL refresh_continuous_aggregate('c', NULL, '2026-10-25')",
             f"a: CALL refresh_continuous_aggregate('c', NULL, {DATE})"),
            ("a: REFRESH CUT 'c', '2026-10-25', NULL", f"a: REFRESH CUT 'c', {DATE}, NULL"),
            ("a: SELECT calendar_bucket(1, 'month', time), count(*) FROM m GROUP BY 1",) * 2,
        ):  # fmt: skip
            self.assertEqual(translator.translated(text), sent)
        self.assertEqual(
            self.translator("us").translated("a: TICK '2026-10-25 00:00:00.25'"), f"a: TICK {DATE * 10**6 + 250000}"
        )

    def test_what_is_not_sent(self) -> None:
        translator = self.translator()
        for text, why in (
            ("a: INSERT INTO m VALUES ('2026-13-25', 1, 5)", "no date"),
            ("a: INSERT INTO m VALUES ('tomorrow', 1, 5)", "no date"),
            ("a: INSERT INTO m VALUES ('2026-10-25 00:00:00.5', 1, 5)", "whole number of s"),
            ("a: SELECT * FROM m WHERE dev = 'pump-b'", "did you mean 'pump-a'"),
            ("a: SELECT * FROM m WHERE v = '7'", "a number, which stands in no quotes"),
            ("a: SELECT * FROM m WHERE v = 'x'", "--texts v"),
            ("a: INSERT INTO m VALUES (1, 1, 'x')", "--texts v"),
            ("a: INSERT INTO m VALUES (1, '', 1)", "empty text"),
            ("a: SELECT time_bucket('1 month', time), count(*) FROM m GROUP BY 1", "calendar_bucket"),
            ("a: SELECT * FROM nothing WHERE time > '2026-10-25'", "stands where no date"),
            ("a: SELECT * FROM m WHERE 'time' > 5", "stands where no date"),
            ("a: SELECT * FROM m WHERE time > now() - 5", "added or taken away"),
            ("a: SELECT drop_chunks('m; DELETE', 5)", "stands where no date"),
            ("a: TICK '2026-10-25' 'x'", "added or taken away"),
        ):  # fmt: skip
            with self.assertRaisesRegex(NotSent, why.replace("(", r"\("), msg=text):
                translator.translated(text)
        with self.assertRaisesRegex(NotSent, "has no unit: --times"):
            self.translator(None).translated("a: TICK now()")

    def test_nothing_is_touched_without_unit_and_texts(self) -> None:
        translator = self.translator(None, texts=False)
        for text in (
            "a: TICK now()",
            "a: SELECT * FROM m WHERE dev = 'pump-a'",
            "a: INSERT INTO m VALUES ('2026-10-25', 1, 1)",
        ):
            self.assertEqual(translator.translated(text), text)

    def test_new_texts_are_on_the_disk_before_their_rows(self) -> None:
        translator = self.translator(new=frozenset(["v"]))
        self.assertEqual(
            translator.translated("a: INSERT INTO m VALUES (1, 'pump-c', 'x'), (2, 'pump-c', 'x')"),
            "a: INSERT INTO m VALUES (1, 3, 1), (2, 3, 1)",
        )
        kept = Names.read(self.folder)
        self.assertEqual((kept.number_of("dev", "pump-c"), kept.number_of("v", "x"), kept.times), (3, 1, "s"))

    def test_a_statement_that_isnt_sent_keeps_no_text(self) -> None:
        with self.assertRaises(NotSent):
            self.translator().translated("a: INSERT INTO m VALUES ('2026-13-25', 'pump-d', 5)")
        self.assertIsNone(Names.read(self.folder).number_of("dev", "pump-d"))


class UnitTest(unittest.TestCase):
    """The unit of times that a statement decides, and statements that need one."""

    def setUp(self) -> None:
        folder = tempfile.TemporaryDirectory()
        self.addCleanup(folder.cleanup)
        self.folder = Path(folder.name)

    def sender(self, unit: Unit | None = None) -> Sender:
        options = Namespace(times=unit, texts=[], show=False)
        return Sender(options, schema(), Names.read(self.folder), "WHAT TO WRITE")

    def remembered_after(self, text: str, head: str, unit: Unit | None = "s") -> Unit | None:
        """The unit that a new folder remembers after a statement and its reply."""
        (self.folder / "tsctl.names").unlink(missing_ok=True)
        sender = self.sender(unit)
        sent = sender.sent(1, text.encode())
        self.assertIsNone(Names.read(self.folder).times, "it isn't known yet whether the statement is refused")
        sender.learn(Reply(Line(1, "a", sent.decode()), [head]))
        return Names.read(self.folder).times

    def test_a_definition_decides_it(self) -> None:
        view = "a: CREATE MATERIALIZED VIEW d WITH (timescaledb.continuous) AS SELECT time_bucket({}, time) AS b, " \
            "count(*) FROM m GROUP BY b"
        hyper = "a: SELECT create_hypertable('m', 'time', chunk_time_interval => {})"
        policy = "a: SELECT add_continuous_aggregate_policy('c', start_offset => NULL, end_offset => {}, " \
            "schedule_interval => 60)"
        for text, head in (
            (view, "a: VIEW @2"), (hyper, "a: HYPERTABLE @2"), (policy, "a: POLICY 1"),
            ("a: SELECT add_retention_policy('m', drop_after => {})", "a: POLICY 1"),
        ):  # fmt: skip
            self.assertEqual(self.remembered_after(text.format("'1 day'"), head), "s", text)
            self.assertIsNone(self.remembered_after(text.format("'1 day'"), "a: FAULT E06 no_table"), text)
            self.assertIsNone(self.remembered_after(text.format(60), head), "a number says no unit")
        for text, head in (
            ("a: SELECT * FROM m WHERE time > '2026-10-25'", "a: ANSWER @2 rows 0 stale 0"),
            ("a: DELETE FROM m WHERE time > '2026-10-25'", "a: COMMIT @3 +0 -1"),
            ("a: SELECT drop_chunks('m', INTERVAL '1 day')", "a: COMMIT @3 +0 -1"),
        ):
            self.assertIsNone(self.remembered_after(text, head), text)

    def test_later_statements_need_no_unit_again(self) -> None:
        text = "a: SELECT create_hypertable('m', 'time', chunk_time_interval => INTERVAL '1 day')"
        self.remembered_after(text, "a: HYPERTABLE @2", "ms")
        sent = self.sender().sent(1, b"a: SELECT time_bucket('1 hour', time) AS b, sum(v) FROM m GROUP BY b")
        self.assertEqual(sent, b"a: SELECT time_bucket(3600000, time) AS b, sum(v) FROM m GROUP BY b")
        with self.assertRaisesRegex(Trouble, "says that times are in ms"):
            self.sender("s")

    def test_what_needs_a_unit_says_what_to_write(self) -> None:
        for text in (
            "a: SELECT create_hypertable('m', 'time', chunk_time_interval => INTERVAL '1 day')",
            "a: CREATE MATERIALIZED VIEW d WITH (timescaledb.continuous) AS SELECT time_bucket('1 hour', time) AS b, "
            "count(*) FROM m GROUP BY b",
            "a: SELECT add_retention_policy('m', drop_after => '30 days')", "a: TICK now()",
            "a: SELECT * FROM m WHERE time > '2026-10-25'", "a: SELECT drop_chunks('m', now() - INTERVAL '1 day')",
        ):  # fmt: skip
            with self.assertRaisesRegex(NotSent, "has no unit: WHAT TO WRITE says what times are"):
                self.sender().sent(1, text.encode())

    def test_what_has_no_number_in_any_unit_is_left_to_tsctl(self) -> None:
        for text in (
            b"a: SELECT time_bucket('1 month', time), count(*) FROM m GROUP BY 1",
            b"a: SELECT * FROM m WHERE time > 'noon'", b"a: SELECT * FROM m WHERE dev = 'pump-a'",
            b"a: SELECT create_hypertable('m', 'time', chunk_time_interval => 60)", b"a: SELECT drop_chunks('m', 5)",
        ):  # fmt: skip
            self.assertEqual(self.sender().sent(1, text), text)


if __name__ == "__main__":
    unittest.main()
