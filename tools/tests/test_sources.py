"""Rows of files, by their formats, and rows in blocks."""
import io
import random
import unittest
from collections import Counter

from tsqlib import blocks
from tsqlib.blocks import Parts
from tsqlib.sources import Csv, Json, LineProtocol, Source
from tsqlib.values import Bad

# A line of the line protocol, and its cells of v, s, tag and time; what is refused is a text.
LINES: list[tuple[str, list[str] | str]] = [
    ("m v=1 5", ["1", "", "", "5"]),
    ("m,tag=a\\ b\\,c\\=d v=1i,s=\"x, \\\"y\\\" \\\\ = z\" 5", ["1", 'x, "y" \\ = z', "a b,c=d", "5"]),
    ("m v=1.5e3,s=t", ["1.5e3", "1", "", ""]),
    ("M,TAG=x v=-7i -5", ["-7", "", "x", "-5"]),
    ("m v=1,v=2 5", "has the key v twice"),
    ("m,v=a v=2 5", "has the key v twice"),
    ("m", "is no line protocol"),
    ("m v= 5", "is no line protocol"),
    ("m v=1 5 6", "is no line protocol"),
    ('m s="x 5', "is no line protocol"),
]

JSON: list[tuple[str, list[str] | str]] = [
    ('{"v": 1.50, "TIME": 5}', ["1.50", "", "", "5"]),
    (
        '{"v": 12345678901234567890123, "s": true, "tag": null, "time": "2024"}',
        ["12345678901234567890123", "1", "", "2024"],
    ),
    ('{"v": 1, "V": 2}', "has the key V twice"),
    ('{"v": [1]}', "has an array or an object for v"),
    ('{"w": [1], "v": 2}', ["2", "", "", ""]),
    ('{"v": NaN}', "has NaN, which is no number"),
    ('{"v": 1} 2', "is no JSON"),
    ("7", "is no JSON object"),
]
KEYS = ["v", "s", "tag", "time"]


def only(source: Source) -> list[str] | str:
    """The one row of a source."""
    ((_, cells),) = source.rows()
    return str(cells) if isinstance(cells, Bad) else cells


class SourcesTest(unittest.TestCase):
    def test_line_protocol(self) -> None:
        for line, cells in LINES:
            with self.subTest(line=line):
                self.assertEqual(only(LineProtocol(io.StringIO(line), KEYS, "m")), cells)

    def test_other_lines(self) -> None:
        source = LineProtocol(io.StringIO("# m v=1 1\n\nother v=1 1\nm v=1 2\n"), KEYS, "m")
        self.assertEqual([line for line, _ in source.rows()], [4])
        self.assertEqual(source.elsewhere, 1)

    def test_json(self) -> None:
        for line, cells in JSON:
            with self.subTest(line=line):
                self.assertEqual(only(Json(io.StringIO(line), KEYS)), cells)

    def test_csv(self) -> None:
        text = 'Time, "V"\r\n\r\n1,"a\nb"\r\n 2 ,  "x, ""y"""\r\n'
        source = Csv(io.StringIO(text, newline=""), ",", True)
        self.assertEqual(source.names, ["Time", "V"])
        self.assertEqual(list(source.rows()), [(3, ["1", "a\nb"]), (5, ["2 ", 'x, "y"'])])
        self.assertEqual(source.as_read(), '2 ,"x, ""y"""\n')
        self.assertEqual(Csv(io.StringIO(""), ",", True).names, [])


class BlocksTest(unittest.TestCase):
    def test_parts(self) -> None:
        chance = random.Random(5)
        rows = [(chance.randrange(-300, 300), chance.randrange(9)) for _ in range(2000)]
        for most_waiting, most_block in [(1 << 24, 1 << 24), (50, 100)]:
            with self.subTest(most_waiting=most_waiting), Bounds(most_waiting, most_block), Parts(100) as parts:
                for time, value in rows:
                    parts.add(time, f"{value},{time}")
                found = list(parts.blocks(None, 1))
                self.assertEqual(Counter(sum(found, [])), Counter(f"{value},{time}" for time, value in rows))
                lows = [{int(row.split(",")[1]) // 100 for row in block} for block in found]
                self.assertTrue(all(len(low) == 1 for low in lows))
                self.assertEqual(lows, sorted(lows, key=min))
                self.assertEqual(found, list(parts.blocks(None, 1)))

    def test_gap(self) -> None:
        with Parts(100) as parts:
            for time in [50, 0, 10, 99, 100, 5, 20]:
                parts.add(time, str(time))
            self.assertEqual(list(parts.blocks(10, 0)), [["0", "5", "10", "20"], ["50"], ["99"], ["100"]])


class Bounds:
    """Other bounds of the module for a while."""

    def __init__(self, waiting: int, block: int) -> None:
        self.new = (waiting, block)

    def __enter__(self) -> None:
        self.old = (blocks.MOST_WAITING, blocks.MOST_BLOCK)
        blocks.MOST_WAITING, blocks.MOST_BLOCK = self.new

    def __exit__(self, *_: object) -> None:
        blocks.MOST_WAITING, blocks.MOST_BLOCK = self.old


if __name__ == "__main__":
    unittest.main()
