"""What PostgreSQL writes: times, decimals, lengths and COPY; dumps, and views as definitions of aggregates."""
import io
import unittest
from pathlib import Path

from tsqlib.imported import Imported, Options, Source, digits_in, digits_of_time, name_here, source_of
from tsqlib.messages import Trouble
from tsqlib.names import Names, Unit
from tsqlib.pg_dump import Column, Dump, Table
from tsqlib.pg_views import Fold
from tsqlib.postgres import copied_text, copy_text, interval, scaled, text_literal, timestamp
from tsqlib.values import Bad

TIMES: list[tuple[int, Unit, str | None]] = [
    (0, "s", "1970-01-01 00:00:00+00"),
    (-1, "ms", "1969-12-31 23:59:59.999+00"),
    (1704067200123456, "us", "2024-01-01 00:00:00.123456+00"),
    (1704067200500000, "us", "2024-01-01 00:00:00.5+00"),
    (253402300800, "s", "10000-01-01 00:00:00+00"),
    (-62135596800, "s", "0001-01-01 00:00:00+00"),
    (-62135596801, "s", "0001-12-31 23:59:59+00 BC"),
    (-210866803200, "s", "4714-11-24 00:00:00+00 BC"),
    (-210866803201, "s", None),
    (9224318015999, "s", "294276-12-31 23:59:59+00"),
    (9224318016000, "s", None),
]

LENGTHS: list[tuple[int, Unit, str]] = [
    (86400, "s", "INTERVAL '1 day'"),
    (7200, "s", "INTERVAL '2 hours'"),
    (90, "s", "INTERVAL '90 seconds'"),
    (60000, "ms", "INTERVAL '1 minute'"),
    (1, "us", "INTERVAL '1 microsecond'"),
    (604800, "s", "INTERVAL '7 days'"),
]

# A number, and how many digits it needs after the point.
DIGITS = [
    ("1", 0),
    ("1.50", 1),
    ("0.00", 0),
    ("1e-05", 5),
    ("1.25e1", 1),
    ("100", 0),
    ("1e3", 0),
    ("-.125", 3),
    ("1.0e-1", 1),
]

DUMP = """SET client_encoding = 'UTF8';
CREATE TABLE public.m (
    "time" timestamp with time zone NOT NULL,
    "Device Name" character varying(20) DEFAULT 'x'::character varying,
    v numeric(10,2),
    CONSTRAINT m_check CHECK ((v > (0)::numeric))
);
CREATE TABLE public.m_1 (
    CONSTRAINT c CHECK (true)
)
INHERITS (public.m);
CREATE VIEW public.hours AS
 SELECT date_bin('01:00:00'::interval, m."time", '2000-01-01 00:00:00+00'::timestamp with time zone) AS hour
   FROM public.m;
COPY public.m ("time", "Device Name", v) FROM stdin;
2024-01-01 00:00:00+00\ta\\tb\\\\n\t1.50
\\.
COPY public.m_1 (v, "time") FROM stdin;
\\N\t2024-01-02 00:00:00+00
\\.
"""

FROM = "FROM public.m"
BUCKET = "public.time_bucket('01:00:00'::interval, m.\"time\")"
# The query of a view, and the definition, or why there is none.
VIEWS = [
    (f"SELECT {BUCKET} AS hour, m.device, count(*) AS n {FROM} GROUP BY ({BUCKET}), m.device",
     "SELECT time_bucket(3600, time) AS hour, device, count(*) AS n FROM m GROUP BY 1, 2"),
    (f"SELECT time_bucket('7 days'::interval, \"time\") AS w, avg(v) AS a {FROM} GROUP BY 1",
     "SELECT time_bucket(604800, time, 345600) AS w, avg(v) AS a FROM m GROUP BY 1"),
    (f"SELECT {BUCKET}, sum(v) {FROM} WHERE ((m.v > '-1.5'::numeric) AND (m.device = 'it''s'::text)) GROUP BY "
     f"({BUCKET})",
     "SELECT time_bucket(3600, time), sum(v) FROM m WHERE v > -150 AND device = 7 GROUP BY 1"),
    (f"SELECT {BUCKET}, sum(v) {FROM} WHERE (m.v IS NOT NULL) GROUP BY ({BUCKET})",
     "SELECT time_bucket(3600, time), sum(v) FROM m WHERE v IS NOT NULL GROUP BY 1"),
    (f"SELECT {BUCKET}, sum(v) {FROM} WHERE ((m.v > 1) OR (m.v < 0)) GROUP BY ({BUCKET})", Bad),
    (f"SELECT {BUCKET}, sum(v) {FROM} WHERE (m.device > 'a') GROUP BY ({BUCKET})", Bad),
    (f"SELECT {BUCKET}, sum(v) {FROM} WHERE (m.v > 0.001) GROUP BY ({BUCKET})", Bad),
    (f"SELECT {BUCKET}, sum(v) AS s {FROM} GROUP BY ({BUCKET}), m.device", Bad),
    (f"SELECT {BUCKET}, sum((v * 2)) AS s {FROM} GROUP BY ({BUCKET})", Bad),
    (f"SELECT {BUCKET}, max(device) AS s {FROM} GROUP BY ({BUCKET})", Bad),
    (f"SELECT {BUCKET}, count(*), device {FROM} GROUP BY ({BUCKET}), device", Bad),
    (f"SELECT {BUCKET}, device AS d, count(*) {FROM} GROUP BY ({BUCKET}), device", Bad),
    (f"SELECT time_bucket('1 mon'::interval, \"time\"), count(*) {FROM} GROUP BY 1", Bad),
    (f"SELECT {BUCKET}, count(*) {FROM} GROUP BY 1 HAVING (count(*) > 1)", Bad),
    (f"SELECT {BUCKET}, count(*) {FROM} JOIN n ON true GROUP BY 1", Bad),
    (f"SELECT {BUCKET}, count(DISTINCT v) {FROM} GROUP BY 1", Bad),
    ("SELECT v FROM public.m", Bad),
]  # fmt: skip


class PostgresTest(unittest.TestCase):
    def test_times(self) -> None:
        for number, unit, text in TIMES:
            with self.subTest(number=number):
                if text is None:
                    self.assertRaises(Bad, timestamp, number, unit)
                else:
                    self.assertEqual(timestamp(number, unit), text)

    def test_lengths(self) -> None:
        for length, unit, text in LENGTHS:
            self.assertEqual(interval(length, unit), text)
        self.assertEqual(interval(172800, "s", False), "INTERVAL '48 hours'")

    def test_decimals(self) -> None:
        found = [scaled(*it) for it in [(5, 0), (5, 2), (-5, 2), (-12345, 2), (0, 1)]]
        self.assertEqual(found, ["5", "0.05", "-0.05", "-123.45", "0.0"])
        for text, digits in DIGITS:
            self.assertEqual(digits_in(text), digits, text)
        for text in ["NaN", "Infinity", "", "x"]:
            self.assertRaises(Bad, digits_in, text)
        self.assertEqual(
            [digits_of_time(f"2024-01-01 00:00:00{it}+00") for it in ["", ".5", ".1234", ".100000"]], [0, 3, 6, 3]
        )

    def test_copy(self) -> None:
        for text in ["a\tb\nc\rd\\e", "\\N", "\\.", "größe", "\x08\x0b\x0c", ""]:
            self.assertEqual(copied_text(copy_text(text)), text)
        self.assertEqual([copied_text(it) for it in ["\\N", "\\x41\\101\\q", "\\\\N"]], [None, "AAq", "\\N"])
        self.assertEqual([text_literal(it) for it in ["it's", "a\\b"]], ["'it''s'", "E'a\\\\b'"])


class DumpTest(unittest.TestCase):
    def test_reads(self) -> None:
        dump = Dump(io.BytesIO(DUMP.encode()))
        (table,) = dump.whole_tables()
        self.assertEqual(
            [it.type for it in table.columns], ["timestamp with time zone", "character varying(20)", "numeric(10,2)"]
        )
        self.assertEqual([it.is_not_null for it in table.columns], [True, False, False])
        rows = [cells for _, cells in dump.rows(table)]
        self.assertEqual(rows, [["2024-01-01 00:00:00+00", "a\tb\\n", "1.50"], ["2024-01-02 00:00:00+00", None, None]])
        self.assertEqual([view.name for view in dump.views], ["public.hours"])

    def test_refuses(self) -> None:
        cut = DUMP[: DUMP.index("\\.\nCOPY")]
        for content in [
            cut,
            "-- PostgreSQL database dump\n" + DUMP,
            "PGDMP\1",
            "INSERT INTO public.m VALUES (1);\n",
            "SET client_encoding = 'LATIN1';\n",
            "\xff\n",
        ]:
            with self.subTest(content=content):
                self.assertRaises(Trouble, Dump, io.BytesIO(content.encode("latin-1")))

    def test_names(self) -> None:
        taken: set[str] = set()
        self.assertEqual(
            [name_here(it, taken) for it in ["A b", "a_b", "1x", "größe"]], ["a_b", "a_b_2", "_1x", "gr__e"]
        )

    def test_time_columns(self) -> None:
        columns = [
            Column("made", "date", False),
            Column("at", "timestamp with time zone", True),
            Column("n", "bigint", True),
        ]
        cases: list[tuple[list[str], int]] = [([], 1), (["made"], 0), (["n"], 2)]
        for times, place in cases:
            source = source_of(Table("public.t", columns), set(), Options(frozenset(), times, {}))
            self.assertEqual(source and source.time, place)
        options = Options(frozenset(), [], {})
        self.assertIsNone(source_of(Table("public.t", columns[2:]), set(), options))
        self.assertIn("has no date", options.left_out[0])


class ViewsTest(unittest.TestCase):
    def test_definitions(self) -> None:
        columns = [Column("time", "timestamptz", True), Column("device", "text", True), Column("v", "numeric", False)]
        here = [Imported("time", "time", True), Imported("device", "text", True), Imported("v", "number", False)]
        names = Names(Path())
        names._learn(b'tsctl.names 1\ntext device 7 "it\'s"\n')
        fold = Fold([Source("m", Table("public.m", columns), here)], names, "s", {"v": 2})
        front = "CREATE MATERIALIZED VIEW x WITH (timescaledb.continuous, timescaledb.materialized_only = false) AS "
        for query, wanted in VIEWS:
            with self.subTest(query=query):
                if isinstance(wanted, str):
                    self.assertEqual(fold.definition("x", query), front + wanted)
                else:
                    self.assertRaises(Bad, fold.definition, "x", query)


if __name__ == "__main__":
    unittest.main()
