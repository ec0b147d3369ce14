"""Answers as tables, CSV and JSON."""
from __future__ import annotations

import json
import tempfile
import unittest
from pathlib import Path
from typing import Any

from tsqlib.answers import (
    Style, answer_object, csv_lines, csv_ranges, expanded, json_lines, json_ranges, range_text, table,
)  # fmt: skip
from tsqlib.dropped import with_drops
from tsqlib.names import Names
from tsqlib.printing import dated
from tsqlib.replies import Reply
from tsqlib.schema import Output
from tsqlib.statements import Line

OUTPUT = Output(["hour", "dev", "n", "mean"], frozenset([0]), 1, 3600, True, ("time", "dev", None, "celsius"))
BIG = 2**63 - 1
REPLY = Reply(
    Line(7, "a", "a: SELECT * FROM hours"), ["a: ANSWER @9 rows 3 stale 2"],
    [["0", "1", str(BIG), "43/2"], ["3600", "2", "1", "null"], ["7200", "null", "0", "1/3"]], [(None, 0), (3600, 7200)],
)  # fmt: skip


class AnswersTest(unittest.TestCase):
    def names(self) -> Names:
        folder = tempfile.TemporaryDirectory()
        self.addCleanup(folder.cleanup)
        names = Names.read(Path(folder.name))
        names.remember(texts=[("dev", "pump, a"), ("dev", "true")], scales={"celsius": 1})
        return names

    def rows(self, style: Style) -> list[dict[str, Any]]:
        return [json.loads(line) for line in json_lines(REPLY, OUTPUT, style)]

    def test_table(self) -> None:
        self.assertEqual(table(REPLY, OUTPUT, Style("s")), [
            "               hour   dev                    n    mean",
            "-------------------  ----  -------------------  ------",
            f"1970-01-01 00:00:00     1  {BIG}  21.500  43/2",
            "1970-01-01 01:00:00     2                    1    null        stale",
            "1970-01-01 02:00:00  null                    0   0.333  1/3",
            "stale min..1970-01-01 00:00:00",
            "stale 1970-01-01 01:00:00..1970-01-01 02:00:00",
        ])  # fmt: skip

    def test_texts_and_scales_that_are_remembered(self) -> None:
        for row, wanted in zip(csv_lines(REPLY, OUTPUT, Style(padded=False, fractions=False, names=self.names())), (
            "hour,dev,n,mean,stale,dropped", f'0,"pump, a",{BIG},2.15,false,false', "3600,true,1,,true,false",
            "7200,,0,0.033,false,false",
        )):  # fmt: skip
            self.assertEqual(row, wanted)
        # What is asked for goes before what is remembered.
        scaled = csv_lines(REPLY, OUTPUT, Style(padded=False, fractions=False, scales={"mean": 0}, names=self.names()))
        self.assertTrue(scaled[1].endswith("21.5,false,false"))

    def test_values_of_a_scaled_column_have_its_digits(self) -> None:
        output = Output(["time", "v", "mean"], frozenset([0]), 0, 0, False, ("time", "v", "v"))
        rows = [["0", "2289", "4577/2"], ["1", "2290", "2290/1"], ["2", "-5", "7/3"], ["3", "null", "null"]]
        reply = Reply(Line(1, "a", "a: SELECT"), ["a: ANSWER @9 rows 4 stale 0"], rows)
        style = Style(scales={"v": 2, "mean": 2})
        self.assertEqual(table(reply, output, style), [
            "time      v    mean",
            "----  -----  ------",
            "   0  22.89  22.885  4577/200",
            "   1  22.90  22.900  229/10",
            "   2  -0.05   0.023  7/300",
            "   3   null    null",
        ])  # fmt: skip
        found = csv_lines(reply, output, style._replace(places=12, padded=False, fractions=False))
        self.assertEqual(found[1:], ["0,22.89,22.885", "1,22.9,22.9", "2,-0.05,0.023333333333", "3,,"])

    def test_json(self) -> None:
        plain = self.rows(Style("s", 12, False, False))
        marks = {"stale": False, "dropped": False}
        self.assertEqual(plain[0], {"hour": "1970-01-01T00:00:00Z", "dev": 1, "n": BIG, "mean": 21.5} | marks)
        texts = self.rows(Style(None, 12, False, False, strings=True, names=self.names()))
        self.assertEqual(texts[0], {"hour": "0", "dev": "pump, a", "n": str(BIG), "mean": "2.15"} | marks)
        marks["stale"] = True
        self.assertEqual(texts[1], {"hour": "3600", "dev": "true", "n": "1", "mean": None} | marks)
        self.assertEqual(json_ranges(REPLY, OUTPUT, Style(strings=True)), [
            '{"from": null, "to": "0", "dropped": false}', '{"from": "3600", "to": "7200", "dropped": false}',
        ])  # fmt: skip

    def test_dropped_rows_are_apart(self) -> None:
        reply = with_drops(REPLY._replace(stale=[(None, 3600), (7200, 10800)]), 3600, 3600)
        self.assertEqual((reply.dropped, reply.stale), ([(None, 3600)], [(7200, 10800)]))
        style = Style(padded=False, fractions=False)
        self.assertEqual([line.split(",")[-2:] for line in csv_lines(reply, OUTPUT, style)[1:]],
                         [["false", "true"], ["false", "false"], ["true", "false"]])  # fmt: skip
        found = [json.loads(line) for line in json_lines(reply, OUTPUT, style)]
        self.assertEqual([(row["stale"], row["dropped"]) for row in found],
                         [(False, True), (False, False), (True, False)])  # fmt: skip
        self.assertEqual(csv_ranges(reply, OUTPUT, style), ["from,to,dropped", ",3600,true", "7200,10800,false"])
        whole = json.loads(answer_object(reply, OUTPUT, style))
        self.assertEqual(whole["dropped"], [{"from": None, "to": 3600}])
        self.assertEqual(whole["stale"], [{"from": 7200, "to": 10800}])
        lines = expanded(reply, OUTPUT, style)
        self.assertEqual([line for line in lines if line.startswith("-- ")],
                         ["-- row 1 dropped", "-- row 2", "-- row 3 stale"])  # fmt: skip
        self.assertEqual(lines[-2:], ["dropped min..3600", "stale 7200..10800"])

    def test_an_object_for_each_reply(self) -> None:
        found = json.loads(answer_object(REPLY, OUTPUT, Style("s", 3, False, False)))
        self.assertEqual(
            (found["line"], found["session"], found["position"], found["columns"]),
            (7, "a", 9, ["hour", "dev", "n", "mean", "stale", "dropped"]),
        )
        self.assertEqual((len(found["rows"]), found["rows"][1]["stale"]), (3, True))
        self.assertEqual(found["stale"][1], {"from": "1970-01-01T01:00:00Z", "to": "1970-01-01T02:00:00Z"})
        refused = Reply(Line(2, "a", "a: SELECT"), ["a: FAULT E05 syntax at 10"])
        self.assertEqual(
            json.loads(answer_object(refused, None, Style()))["fault"], {"code": "E05", "word": "syntax", "place": 10}
        )
        stray = json.loads(answer_object(Reply(Line(2, None, "x"), ["line 2: FAULT E03 no_session"]), None, Style()))
        self.assertEqual((stray["session"], stray["position"]), (None, None))

    def test_expanded(self) -> None:
        self.assertEqual(expanded(REPLY, OUTPUT, Style())[4:6], ["mean           21.500", "mean_fraction  43/2"])

    def test_ranges(self) -> None:
        for bounds, unit, wanted in (
            ((None, 5), None, "min..5"),
            ((0, 60), "s", "1970-01-01 00:00:00..1970-01-01 00:01:00"),
        ):
            self.assertEqual(range_text(bounds, unit), wanted)

    def test_windows_of_refreshes_have_dates(self) -> None:
        dates = "1970-01-01 00:00:00..1970-01-01 01:00:00"
        for head, wanted in (
            ("a: REFRESH 5 @6 snap 5 0..3600", f"a: REFRESH 5 @6 snap 5 {dates}"),
            ("a: REFRESH 5 @6 snap 5 min..0", "a: REFRESH 5 @6 snap 5 min..1970-01-01 00:00:00"),
            ("a: CUT 5 0..3600", f"a: CUT 5 {dates}"),
            ("a: SNAP 5 @5", "a: SNAP 5 @5"),
            ("a: ANSWER @6 rows 0 stale 0", "a: ANSWER @6 rows 0 stale 0"),
        ):
            self.assertEqual((dated(head, "s"), dated(head, None)), (wanted, head))


if __name__ == "__main__":
    unittest.main()
