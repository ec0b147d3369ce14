"""Dates of a zone, and periods of the calendar."""
import unittest
from datetime import datetime

from tsqlib.messages import Trouble
from tsqlib.moments import Clock, zone_of
from tsqlib.periods import KINDS, Periods


def at(text: str) -> int:
    return int(datetime.fromisoformat(text).timestamp())


class ClockTest(unittest.TestCase):
    def test_reads_numbers_and_dates(self) -> None:
        berlin = Clock("s", zone_of("Europe/Berlin"))
        cases = [
            (Clock(), "-17", -17),
            (Clock(), "99999999999999999999"[:19], 2**62 - 1),
            (Clock("s"), "2024-01-31", at("2024-01-31T00:00+00:00")),
            (Clock("ms"), "2024-01-31T12:00:00.250Z", at("2024-01-31T12:00+00:00") * 1000 + 250),
            (Clock("s"), "2024-02", at("2024-02-01T00:00+00:00")),
            (berlin, "2024-07-01 08:30", at("2024-07-01T06:30+00:00")),
            (berlin, "2024-07-01 08:30+00:00", at("2024-07-01T08:30+00:00")),
            (Clock("s"), "1969-12-31T23:59:59.5", -1),
        ]
        for clock, text, time in cases:
            with self.subTest(text):
                self.assertEqual(clock.read(text), time)

    def test_refuses_what_is_no_time(self) -> None:
        for clock, text in [(Clock("s"), "2024-13-01"), (Clock("s"), "soon"), (Clock(), "2024-01-01"),
                            (Clock("s"), "1 OR 1=1"),
                            (Clock("s"), ""), (Clock("s"), "2024-01-01\n")]:  # fmt: skip
            with self.subTest(text), self.assertRaises(Trouble):
                clock.read(text)

    def test_writes_ranges_shortly(self) -> None:
        clock = Clock("s")
        cases = [
            ((0, 3600), "1970-01-01 00:00..01:00"),
            ((3600, 7200), "1970-01-01 01:00..02:00"),
            ((3600, 86400), "1970-01-01 01:00..1970-01-02 00:00"),
            ((None, 86400), "min..1970-01-02"),
            ((0, 172800), "1970-01-01..1970-01-03"),
            ((None, 3600), "min..1970-01-01 01:00"),
            ((1, 62), "1970-01-01 00:00:01..00:01:02"),
        ]
        for span, text in cases:
            with self.subTest(span=span):
                self.assertEqual(clock.span(span), text)
        self.assertEqual(Clock().span((None, 7)), "min..7")
        self.assertEqual(clock.spans([(0, 1)] * 3, 1), "1970-01-01 00:00..00:00:01, and 2 more")


class PeriodsTest(unittest.TestCase):
    def test_spans(self) -> None:
        cases = [
            ("day", "UTC", "2024-02-29T23:59:59+00:00", "2024-02-29T00:00+00:00", "2024-03-01T00:00+00:00",
             "2024-02-29"),
            ("week", "UTC", "2024-01-07T12:00+00:00", "2024-01-01T00:00+00:00", "2024-01-08T00:00+00:00", "2024-01-01"),
            ("month", "UTC", "1969-12-31T12:00+00:00", "1969-12-01T00:00+00:00", "1970-01-01T00:00+00:00", "1969-12"),
            ("quarter", "UTC", "2024-12-31T12:00+00:00", "2024-10-01T00:00+00:00", "2025-01-01T00:00+00:00", "2024-Q4"),
            ("year", "UTC", "2024-06-01T12:00+00:00", "2024-01-01T00:00+00:00", "2025-01-01T00:00+00:00", "2024"),
            ("month", "Europe/Berlin", "2024-03-31T22:00+00:00", "2024-04-01T00:00+02:00", "2024-05-01T00:00+02:00",
             "2024-04"),
            ("month", "Europe/Berlin", "2024-03-01T00:00+00:00", "2024-03-01T00:00+01:00", "2024-04-01T00:00+02:00",
             "2024-03"),
            # A day without its midnight, and one of 25 hours.
            ("day", "America/Sao_Paulo", "2018-11-04T12:00+00:00", "2018-11-04T03:00+00:00", "2018-11-05T02:00+00:00",
             "2018-11-04"),
            ("day", "Europe/Berlin", "2024-10-27T12:00+00:00", "2024-10-26T22:00+00:00", "2024-10-27T23:00+00:00",
             "2024-10-27"),
        ]  # fmt: skip
        for kind, zone, time, start, end, name in cases:
            with self.subTest(kind=kind, zone=zone):
                periods = Periods(kind, Clock("s", zone_of(zone)))
                self.assertEqual(periods.span(at(time)), (at(start), at(end)))
                self.assertEqual(periods.name(at(start)), name)

    def test_each_time_lies_in_its_period_and_periods_meet(self) -> None:
        for zone in ("UTC", "Europe/Berlin", "Asia/Kolkata", "America/Havana", "Pacific/Apia", "Asia/Beirut"):
            for kind in KINDS:
                periods, time = Periods(kind, Clock("s", zone_of(zone))), at("2010-12-25T00:00+00:00")
                start, end = periods.span(time)
                for _ in range(60):
                    self.assertTrue(start <= time < end, (zone, kind, time))
                    self.assertEqual(periods.span(end)[0], end, (zone, kind, end))
                    self.assertEqual(periods.span(end - 1), (start, end), (zone, kind, end))
                    time = end + (end - start) // 3
                    start, end = periods.span(time)

    def test_moments_have_the_distance_of_their_zone(self) -> None:
        berlin = Periods("month", Clock("s", zone_of("Europe/Berlin")))
        self.assertEqual(berlin.moment(at("2024-07-01T00:00+02:00")), "2024-07-01T00:00:00+02:00")
        self.assertEqual(Periods("month", Clock("ms")).moment(0), "1970-01-01T00:00:00Z")

    def test_refuses_times_outside_of_years(self) -> None:
        for time in (2**61, -(2**61), at("9999-12-31T12:00+00:00")):
            with self.subTest(time), self.assertRaises(Trouble):
                Periods("month", Clock("s")).span(time)
        with self.assertRaises(Trouble):
            zone_of("Europe/Nowhere")
        with self.assertRaises(Trouble):
            zone_of("../../etc/passwd")
