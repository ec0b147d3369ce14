"""Cells as numbers: decimals, dates, zones, NULL and texts."""
import tempfile
import unittest
from datetime import datetime, timezone
from pathlib import Path
from zoneinfo import ZoneInfo

from tsqlib.names import Names, Unit
from tsqlib.values import Bad, Column, Texts, Times, converter, number_of, time_of

# A cell, the power of ten, and the number; nothing if it is refused.
NUMBERS: list[tuple[str, int, int | None]] = [
    ("0", 0, 0),
    ("007", 0, 7),
    ("-1.5", 1, -15),
    ("+1.50", 1, 15),
    (".5", 1, 5),
    ("5.", 1, 50),
    ("1e3", 0, 1000),
    ("1.5e-1", 2, 15),
    ("1.25", 1, None),
    ("1e-1", 0, None),
    ("", 0, None),
    (".", 0, None),
    ("1_000", 0, None),
    ("١", 0, None),
    ("0x1", 0, None),
    ("nan", 0, None),
    ("1 000", 0, None),
]

# A date, a unit, and the time.
DATES: list[tuple[str, Unit, int | None]] = [
    ("1970-01-01", "s", 0),
    ("1969-12-31T23:59:59Z", "s", -1),
    ("1970-01-01 01:00+01", "s", 0),
    ("1970-01-01 01:30+0130", "s", 0),
    ("1970-01-01 01:30:00+01:30", "ms", 0),
    ("1970-01-01 00:00:01 UTC", "s", 1),
    ("1970-01-01 00:00:00.5", "ms", 500),
    ("1970-01-01 00:00:00.123456789", "us", None),
    ("1970-01-01 00:00:00.123456000Z", "us", 123456),
    ("1969-12-31 23:59:59.75", "ms", -250),
    ("1970-01-01 00:00:00.5", "s", None),
    ("2023-02-29", "s", None),
    ("1970-01-01 24:00", "s", None),
    ("1970-01-01 00:60", "s", None),
    ("1970-1-1", "s", None),
    ("19700101", "s", None),
    ("1970-01-01 00:00:00+99", "s", None),
]


def seconds(text: str) -> int:
    """The seconds of a date in UTC."""
    return int(datetime.fromisoformat(text).replace(tzinfo=timezone.utc).timestamp())


class ValuesTest(unittest.TestCase):
    def test_numbers(self) -> None:
        for text, scale, number in NUMBERS:
            with self.subTest(text=text, scale=scale):
                if number is None:
                    self.assertRaises(Bad, number_of, text, scale, "v")
                else:
                    self.assertEqual(number_of(text, scale, "v"), number)

    def test_dates(self) -> None:
        for text, unit, time in DATES:
            with self.subTest(text=text, unit=unit):
                if time is None:
                    self.assertRaises(Bad, time_of, text, unit)
                else:
                    self.assertEqual(time_of(text, unit), time)

    def test_zone(self) -> None:
        berlin = ZoneInfo("Europe/Berlin")
        for fold, hour in [(0, "00"), (1, "01")]:
            times = Times("s", berlin, fold=fold)
            self.assertEqual(times.of("2024-10-27 02:30"), seconds(f"2024-10-27 {hour}:30"))
            self.assertEqual(times.doubled, 1)
        times = Times("s", berlin)
        self.assertRaises(Bad, times.of, "2024-03-31 02:30")
        self.assertEqual(times.of("2024-03-31 03:00"), seconds("2024-03-31 01:00"))
        self.assertEqual(times.of("2024-03-31 03:00Z"), seconds("2024-03-31 03:00"))
        self.assertEqual(times.doubled, 0)

    def test_epochs(self) -> None:
        self.assertEqual(Times("ms", epoch="s").of("5"), 5000)
        self.assertEqual(Times("s", epoch="ns").of("-5000000000"), -5)
        self.assertRaises(Bad, Times("s", epoch="ms").of, "5001")

    def test_dates_of_one_minute_are_as_others(self) -> None:
        convert = converter(Column("time", 0, times=Times("s")), "null", frozenset())
        for text in ["2024-01-01T00:00:59Z", "2024-01-01 00:00:07", "2024-01-01T00:00:07Z", "2024-01-01 00:00:00z"]:
            self.assertEqual(convert(text), str(time_of(text, "s")))
        for text in ["2024-01-01T00:00:60Z", "2024-01-01T00:00:0xZ", "2024-01-01T00-00:01Z", "", "2024-02-30 00:00:01"]:
            self.assertRaises(Bad, convert, text)

    def test_cells(self) -> None:
        convert = converter(Column("v", 0, 1), "null", frozenset({"null", "n/a"}))
        self.assertEqual([convert(it) for it in ["", " ", "NULL", "N/A", " 1.5 ", "2"]], ["null"] * 4 + ["15", "20"])
        plain = converter(Column("v", 0), "null", frozenset({"null"}))
        self.assertEqual(
            [plain(it) for it in ["7", "07", "-7", "9223372036854775807"]], ["7", "7", "-7", str(2**63 - 1)]
        )
        for text in ["9223372036854775808", "-9223372036854775809", "1.5", "²", "x"]:
            self.assertRaises(Bad, plain, text)
        time = converter(Column("time", 0, times=Times()), "null", frozenset({"null"}))
        self.assertEqual(time("-4611686018427387904"), "-4611686018427387904")
        for text in ["4611686018427387904", "", "null"]:
            self.assertRaises(Bad, time, text)
        self.assertRaises(Bad, converter(Column("v", 0, is_not_null=True), "null", frozenset({"null"})), "null")

    def test_texts(self) -> None:
        with tempfile.TemporaryDirectory() as folder:
            names = Names.read(Path(folder))
            names.remember([("device", "a")])
            texts = Texts("device", names)
            convert = converter(Column("device", 0, texts=texts), "null", frozenset({"null"}))
            self.assertEqual([convert(it) for it in ["a", " a ", "b", "", "b"]], ["1", "1", "2", "null", "2"])
            texts.keep()
            self.assertEqual(convert("c"), "3")
            texts.undo()
            self.assertEqual(convert("d"), "3")
            texts.keep()
            self.assertEqual(texts.new(), {"b": 2, "d": 3})


if __name__ == "__main__":
    unittest.main()
