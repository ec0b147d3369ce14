"""`tsq refresh`: what is late is mended, and what was dropped stays as it is shown."""
from __future__ import annotations

import contextlib
import io
import subprocess
import tempfile
import unittest
from pathlib import Path

from tests.serving import NEEDS
from tsqlib import programs
from tsqlib.dropped import JournalDrops
from tsqlib.main import options_of
from tsqlib.messages import Trouble
from tsqlib.replies import Reply, replies_in

SETUP = """a: CREATE TABLE m (time BIGINT NOT NULL, v BIGINT)
a: SELECT create_hypertable('m', 'time', chunk_time_interval => 100)
a: CREATE MATERIALIZED VIEW tens WITH (timescaledb.continuous) AS SELECT time_bucket(10, time) AS b, count(*) AS n, \
sum(v) AS s FROM m GROUP BY b WITH NO DATA
a: CREATE MATERIALIZED VIEW sixties WITH (timescaledb.continuous) AS SELECT time_bucket(60, time) AS b, count(*) AS n \
FROM m GROUP BY b WITH NO DATA
a: INSERT INTO m VALUES (5, 1), (45, 2), (115, 3), (125, 4), (205, 5), (305, 6)
a: CALL refresh_continuous_aggregate('tens', NULL, NULL)
a: CALL refresh_continuous_aggregate('sixties', NULL, NULL)
"""
# Two chunks are dropped, and rows come late on both sides.
DROP = "a: SELECT drop_chunks('m', 200)\n"
LATE = "a: INSERT INTO m VALUES (47, 7)\na: INSERT INTO m VALUES (207, 8)\na: INSERT INTO m VALUES (301, 9)\n"


@NEEDS
class RefreshTest(unittest.TestCase):
    def setUp(self) -> None:
        folder = tempfile.TemporaryDirectory()
        self.addCleanup(folder.cleanup)
        self.folder = Path(folder.name)
        self.run_script(SETUP)

    def run_script(self, script: str) -> list[Reply]:
        _, output = programs.call(["run"], script.encode(), self.folder)
        return list(replies_in(output, script.encode()))

    def rows(self, view: str) -> dict[str, list[str]]:
        """The rows of an aggregate, by their buckets."""
        (reply,) = self.run_script(f"a: SELECT * FROM {view}\n")
        return {row[0]: row[1:] for row in reply.rows}

    def stale(self, view: str) -> list[tuple[int | None, int]]:
        (reply,) = self.run_script(f"a: SELECT * FROM {view}\n")
        return list(reply.stale)

    def refresh(self, *words: str) -> tuple[int, list[str]]:
        """The status of `tsq refresh`, and its lines."""
        arguments = options_of(["refresh", "--in", str(self.folder), "--stale", *words])
        with contextlib.redirect_stdout(io.StringIO()) as printed:
            status = arguments.call(arguments)
        return status, printed.getvalue().splitlines()

    def test_mends_what_is_late_and_keeps_what_was_dropped(self) -> None:
        self.run_script(DROP + LATE)
        before = self.rows("tens")
        status, lines = self.refresh("tens")
        self.assertEqual(status, 0)
        self.assertEqual([line.split(": ")[0] for line in lines], [
            "200..210", "300..310", "left 0..130", "tens is refreshed from 130 on"])  # fmt: skip
        after = self.rows("tens")
        self.assertEqual({bucket: row for bucket, row in after.items() if int(bucket) < 200},
                         {bucket: row for bucket, row in before.items() if int(bucket) < 200})  # fmt: skip
        self.assertEqual((after["200"], after["300"]), (["2", "13"], ["2", "15"]))
        self.assertEqual(self.stale("tens"), [(0, 130)])
        self.assertEqual(self.refresh("tens")[1][0], "tens: nothing is stale that a refresh could bring up to date")

    def test_leaves_a_bucket_that_a_dropped_chunk_ends_in(self) -> None:
        self.run_script("a: INSERT INTO m VALUES (190, 1)\na: CALL refresh_continuous_aggregate('sixties', NULL, "
                        "NULL)\n"
                        "a: SELECT drop_chunks('m', 200)\na: INSERT INTO m VALUES (203, 1), (303, 1)\n")  # fmt: skip
        self.assertEqual(self.rows("sixties")["180"], ["2"])
        _, lines = self.refresh("sixties")
        self.assertEqual(
            [line.split(": ")[0] for line in lines], ["240..360", "left 0..240", "sixties is refreshed from 240 on"]
        )
        self.assertEqual(self.rows("sixties")["180"], ["2"])

    def test_knows_what_was_dropped_before_an_image(self) -> None:
        self.run_script(DROP)
        programs.call(["checkpoint"], b"", self.folder)
        self.run_script(LATE)
        before = self.rows("tens")
        self.assertEqual(self.refresh("tens")[1][2].split(": ")[0], "left 0..130")
        self.assertEqual(self.rows("tens")["0"], before["0"])
        self.assertEqual(JournalDrops(self.folder).kept_from("tens"), 130)

    def test_begins_at_a_time(self) -> None:
        self.run_script(LATE)
        self.assertEqual(
            [line.split(": ")[0] for line in self.refresh("tens", "--from", "200")[1]], ["200..210", "300..310"]
        )
        self.assertEqual(self.stale("tens"), [(40, 50)])
        self.assertEqual([line.split(": ")[0] for line in self.refresh("tens")[1]], ["40..50"])
        self.assertEqual(self.stale("tens"), [])

    def test_shows_statements_and_runs_none(self) -> None:
        self.run_script(DROP + LATE)
        before = (self.folder / "tsctl.journal").read_bytes()
        self.assertEqual(self.refresh("tens", "--show")[1], [
            "tsq: CALL refresh_continuous_aggregate('tens', 200, 210)",
            "tsq: CALL refresh_continuous_aggregate('tens', 300, 310)",
            "-- left: 0..130, since drop_chunks removed rows there",
        ])  # fmt: skip
        self.assertEqual((self.folder / "tsctl.journal").read_bytes(), before)

    def test_refuses_a_folder_that_is_held_and_an_aggregate_that_is_none(self) -> None:
        for view, wanted in [("m", "isn't an aggregate"), ("q", "isn't there"), ("tens', 0, 1)", "is no name"),
                             ("tens\na: DELETE FROM m", "has a control character")]:
            with self.subTest(view), self.assertRaisesRegex(Trouble, wanted):
                self.refresh(view)
        run = subprocess.Popen(
            [programs.tsctl(), "run"], cwd=self.folder, stdin=subprocess.PIPE, stdout=subprocess.PIPE
        )
        assert run.stdin and run.stdout
        run.stdin.write(b"a: COMMIT\n")
        run.stdin.flush()
        run.stdout.readline()
        with self.assertRaisesRegex(Trouble, f"process {run.pid} holds"):
            self.refresh("tens")
        self.assertEqual(self.refresh("tens", "--show"), (0, []))
        run.communicate()

    def test_follows_a_journal(self) -> None:
        drops = JournalDrops(self.folder)
        self.assertIsNone(drops.kept_from("tens"))
        self.run_script(DROP)
        self.assertEqual(
            (drops.kept_from("tens"), drops.kept_from("sixties"), drops.kept_from("nosuch")), (130, 180, None)
        )
        self.run_script("a: INSERT INTO m VALUES (199, 1)\na: SELECT drop_chunks('m', 300)\n")
        self.assertEqual(drops.kept_from("tens"), 210)
        self.assertIsNone(JournalDrops(self.folder / "nowhere").kept_from("tens"))
