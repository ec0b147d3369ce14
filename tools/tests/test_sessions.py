"""Sessions of many clients over one tsctl."""
import os
import signal
import threading
import time
import unittest
from collections.abc import Iterable
from pathlib import Path
from typing import Any
from unittest import mock

from tests.serving import OverFolder, running
from tsqlib import programs, seats, sessions as module
from tsqlib.samples import FirstRows
from tsqlib.seats import Owner
from tsqlib.sessions import Ended, GivenUp, Lost, Sessions, Statement, bounded_ranges
from tsqlib.turns import Busy, Turns


class NamesTest(OverFolder):
    def test_replies_have_the_names_and_places_of_the_client(self) -> None:
        shared = self.sessions()
        said = self.heads(
            shared,
            "a_long_name",
            "SELECT * FROM m ORDER BY time",
            "COMMIT",
            "SELECT \u00e9",
            "SELECT 99999999999999999999",
        )
        self.assertEqual(said[:2], ["a_long_name: FAULT E05 syntax at 30", "a_long_name: FAULT E18 no_block"])
        self.assertEqual(said[2:], ["line 1: FAULT E02 not_ascii", "a_long_name: FAULT E05 syntax at 21"])

    def test_nobody_speaks_as_another_session(self) -> None:
        shared = self.sessions()
        self.heads(shared, "w", "BEGIN", "INSERT INTO m VALUES (99, 9, 9)")
        tries = ["w: COMMIT", "c1: COMMIT", ": COMMIT", "\rc1: COMMIT", "ROLLBACK\rc1: COMMIT", "COMMIT; w: COMMIT"]
        self.assertTrue(all(" FAULT E" in head for head in self.heads(shared, "x", *tries)))
        with self.assertRaises(ValueError):
            self.say(shared, "x", "ROLLBACK\nc1: COMMIT")
        self.assertEqual(self.heads(shared, "w", "COMMIT"), ["w: COMMIT @8 +1 -0"])

    def test_sources_have_sessions_of_their_own(self) -> None:
        shared = self.sessions()
        self.heads(shared, "w", "BEGIN", "INSERT INTO m VALUES (99, 9, 9)")
        for source in ("reader", "input"):
            self.assertEqual(self.heads(shared, "w", "COMMIT", source=source), ["w: FAULT E18 no_block"])

    def test_a_request_that_is_whole_leaves_no_block(self) -> None:
        shared = self.sessions()
        how = {"source": "reader", "is_whole": True}
        self.assertEqual(self.heads(shared, "r", "BEGIN READ ONLY", **how), ["r: BEGIN @7"])
        self.assertEqual(self.heads(shared, "r", "COMMIT", **how), ["r: FAULT E18 no_block"])


class SeatsTest(OverFolder):
    def test_more_sessions_than_a_run_has(self) -> None:
        shared = self.sessions()
        for number in range(200):
            self.assertEqual(self.heads(shared, f"s{number}", "COMMIT"), [f"s{number}: FAULT E18 no_block"])

    def test_who_holds_something_keeps_the_seat(self) -> None:
        shared = self.sessions()
        self.heads(shared, "w", "BEGIN", "INSERT INTO m VALUES (99, 9, 9)")
        self.heads(shared, "r", "REFRESH CUT 'c', 0, 40", "REFRESH SNAP")
        for number in range(100):
            self.heads(shared, f"s{number}", "COMMIT")
        self.assertEqual(self.heads(shared, "w", "COMMIT"), ["w: COMMIT @9 +1 -0"])
        self.assertEqual(self.heads(shared, "r", "REFRESH FINISH"), ["r: FINISH 8 @10 snap 8"])

    def test_no_more_blocks_than_seats(self) -> None:
        shared = self.sessions()
        for number in range(seats.SEATS - 1):
            self.heads(shared, f"s{number}", "BEGIN")
        with self.assertRaises(Busy):
            [self.heads(shared, f"t{number}", "BEGIN") for number in range(2)]


class IdleTest(OverFolder):
    def test_the_block_of_a_client_that_has_gone(self) -> None:
        shared = self.sessions()
        self.heads(shared, "gone", "BEGIN", "INSERT INTO m VALUES (99, 9, 9)")
        self.heads(shared, "feed", "BEGIN", source="input")
        self.heads(shared, "there", "COMMIT")
        shared.roll_back_idle(60)
        self.assertEqual(len(shared.seats.held()), 2, "it isn't late yet")
        shared.roll_back_idle(0)
        self.assertEqual([owner.name for owner in shared.seats.held()], ["feed"], "a producer may take its time")
        with self.assertRaisesRegex(Lost, "gone has lost an open block, which it hasn't used for 0 seconds"):
            self.heads(shared, "gone", "COMMIT")
        self.assertEqual(self.heads(shared, "gone", "COMMIT"), ["gone: FAULT E18 no_block"])
        self.assertEqual(shared.position, 7)


class EndsTest(OverFolder):
    def test_a_killed_program_is_told_and_blocks_are_lost_once(self) -> None:
        shared = self.sessions()
        self.heads(shared, "w", "BEGIN", "INSERT INTO m VALUES (99, 9, 9)")
        running(shared).kill()
        with self.assertRaises(Ended) as raised:
            self.heads(shared, "r", "COMMIT")
        self.assertEqual((raised.exception.status, raised.exception.was_put), (137, True))
        with self.assertRaises(Ended) as raised:
            self.heads(shared, "r", "COMMIT")
        self.assertFalse(raised.exception.was_put)
        shared.start()
        with self.assertRaises(Lost):
            self.heads(shared, "w", "INSERT INTO m VALUES (98, 9, 9)", "COMMIT")
        self.assertEqual(self.heads(shared, "w", "COMMIT"), ["w: FAULT E18 no_block"])
        self.assertEqual(shared.position, 7)

    def test_what_another_run_has_made_between(self) -> None:
        shared = self.sessions()
        with shared.turns:
            shared.over(running(shared).end())
        made = (
            b"a: CREATE MATERIALIZED VIEW d WITH (timescaledb.continuous) AS SELECT time_bucket(10, time) AS b,"
            b" count(*) FROM m GROUP BY b\n"
        )
        programs.call(["run"], made, self.folder)
        shared.start()
        self.assertEqual((shared.position, sorted(shared.schema.sources)), (10, ["c", "d"]))

    def test_a_program_that_is_killed_within_an_answer(self) -> None:
        shared = self.sessions()
        values = ", ".join(f"({time}, 1, 1)" for time in range(1000))
        self.say(shared, "w", *(f"INSERT INTO m VALUES {values}" for _ in range(30)))
        child = running(shared).process

        def keep(texts: Iterable[str]) -> list[Any]:
            next(iter(texts))
            os.kill(child.pid, signal.SIGSTOP)
            threading.Timer(0.2, child.kill).start()
            return [text.split("|") for text in texts]

        with self.assertRaises(Ended):
            shared.ask(Owner("client", "r"), [Statement(b"r:", b" SELECT * FROM m")], lambda: keep)

    def test_an_input_that_would_be_too_long(self) -> None:
        shared = self.sessions()
        with mock.patch.object(module, "ENOUGH_INPUT", 500):
            first = shared.program
            self.heads(shared, "w", "BEGIN")
            self.heads(shared, "r", *["COMMIT"] * 100)
            self.assertIs(shared.program, first, "a block is open, so it waits")
            self.heads(shared, "w", "ROLLBACK")
            self.heads(shared, "r", "COMMIT")
            self.assertIsNot(shared.program, first)
        with mock.patch.object(module, "MOST_INPUT", 500):
            self.heads(shared, "w", "BEGIN")
            with self.assertRaises(Lost) as raised:
                self.heads(shared, "w", *["SELECT * FROM m WHERE time = 12"] * 100)
            self.assertGreater(len(raised.exception.told), 0)
        self.assertEqual(self.heads(shared, "w", "COMMIT"), ["w: FAULT E18 no_block"])


class QuestionsTest(OverFolder):
    def watermark(self, shared: Sessions, view: str) -> int | None:
        with shared.turns:
            return shared.watermark(view)

    def test_watermarks(self) -> None:
        shared = self.sessions()
        self.assertEqual(self.watermark(shared, "c"), 40)
        self.heads(
            shared,
            "w",
            "INSERT INTO m VALUES (95, 1, 1)",
            "ALTER MATERIALIZED VIEW c SET (timescaledb.materialized_only = false)",
        )
        self.assertEqual(self.watermark(shared, "c"), 40)
        self.heads(shared, "w", "CALL refresh_continuous_aggregate('c', 0, 80)")
        self.assertEqual(self.watermark(shared, "c"), 40)
        self.heads(shared, "w", "CALL refresh_continuous_aggregate('c', NULL, NULL)")
        self.assertEqual(self.watermark(shared, "c"), 100)
        self.heads(shared, "w", "DELETE FROM m", "CALL refresh_continuous_aggregate('c', NULL, NULL)")
        self.assertEqual(self.watermark(shared, "c"), 100)
        self.heads(
            shared,
            "w",
            (
                "CREATE MATERIALIZED VIEW d WITH (timescaledb.continuous) AS SELECT time_bucket(10, time) AS b,"
                " count(*) FROM m WHERE v > 3 GROUP BY b"
            ),
        )
        self.assertIsNone(self.watermark(shared, "d"))
        self.assertEqual(shared.position, self.position_told(shared))

    def position_told(self, shared: Sessions) -> int:
        return int(self.heads(shared, "p", "BEGIN READ ONLY", "COMMIT")[0].split("@")[1])

    def test_positions(self) -> None:
        shared = self.sessions()
        self.assertEqual(shared.position, 7)
        for text in ("INSERT INTO m VALUES (1, 1, 1)", "REFRESH CUT 'c', 0, 10", "REFRESH SNAP", "REFRESH FINISH",
                     "SELECT * FROM nothing",
                     "BEGIN", "DELETE FROM m", "COMMIT", "TICK 5", "SELECT * FROM c",
                     "CREATE TABLE t (time BIGINT)"):  # fmt: skip
            self.heads(shared, "w", text)
            self.assertEqual(shared.position, self.position_told(shared), text)

    def test_answers_are_kept_for_a_position(self) -> None:
        shared, asked = self.sessions(), []

        def read() -> bytes:
            asked.append(shared.position)
            return b"x"

        def write(value: bytes) -> bytes:
            return value + b"y"

        for _ in range(3):
            self.assertEqual(shared.look("key", read, write), b"xy")
        self.heads(shared, "w", "INSERT INTO m VALUES (1, 1, 1)")
        shared.look("key", read, bytes)
        self.assertEqual(asked, [7, 8])

    def test_an_answer_is_written_after_its_turn(self) -> None:
        shared, begun, going, found = self.sessions(), threading.Event(), threading.Event(), []

        def write(value: bytes) -> bytes:
            begun.set()
            self.assertTrue(going.wait(10))
            return value

        readers = [
            threading.Thread(target=lambda: found.append(shared.look("key", lambda: b"x", write))) for _ in range(3)
        ]
        for reader in readers:
            reader.start()
        self.assertTrue(begun.wait(10))
        self.assertEqual(self.heads(shared, "w", "INSERT INTO m VALUES (1, 1, 1)"), ["w: COMMIT @8 +1 -0"])
        going.set()
        for reader in readers:
            reader.join()
        self.assertEqual(found, [b"x"] * 3)
        with self.assertRaises(ZeroDivisionError):
            shared.look("other", lambda: 0, lambda zero: bytes(1 // zero))
        self.assertEqual(shared.look("other", lambda: 1, lambda one: bytes(1 // one)), b"\0")

    def long_rows(self, shared: Sessions) -> None:
        """Rows whose answer is more than a pipe takes."""
        values = ", ".join(f"({time}, 1, 1)" for time in range(1000))
        self.say(shared, "w", *(f"INSERT INTO m VALUES {values}" for _ in range(30)))

    def test_a_question_that_runs_too_long_is_given_up(self) -> None:
        shared = self.sessions()
        self.long_rows(shared)
        shared.longest, question = 0.1, Statement(b"r:", b" SELECT * FROM m")

        def slow(texts: Iterable[str]) -> list[Any]:
            for place, _ in enumerate(texts):
                time.sleep(0.2 if place == 10 else 0)
            return []

        with self.assertRaisesRegex(GivenUp, "given up after \\d s: 0.1 seconds"):
            shared.ask(Owner("client", "r"), [question], lambda: slow)
        shared.longest = 60.0
        self.assertEqual(self.heads(shared, "w", "DELETE FROM m"), ["w: COMMIT @38 +0 -30005"])

    def test_a_program_may_take_long_to_begin(self) -> None:
        slow = Path(self.folder, "slow")
        slow.write_text(f'#!/bin/sh\nsleep 0.5\nexec "{programs.tsctl()}" "$@"\n')
        slow.chmod(0o755)
        shared = Sessions(self.folder, longest=0.1)
        self.addCleanup(shared.end)
        with mock.patch.dict(os.environ, TSCTL=str(slow)):
            shared.start()
        self.assertEqual(shared.position, 7)

    def test_no_question_is_given_up_where_something_would_be_lost(self) -> None:
        shared = self.sessions()
        self.heads(shared, "w", "BEGIN", "INSERT INTO m VALUES (1, 1, 1)")
        shared.longest = 0.0
        self.assertEqual(self.heads(shared, "r", "SELECT * FROM m WHERE time = 12"), ["r: ANSWER @7 rows 1 stale 0"])
        self.assertEqual(self.heads(shared, "w", "COMMIT"), ["w: COMMIT @8 +1 -0"])

    def test_a_question_is_stopped(self) -> None:
        shared = self.sessions()
        self.assertFalse(shared.stop_question(), "none runs")
        self.long_rows(shared)

        def stopped(texts: Iterable[str]) -> list[Any]:
            for place, _ in enumerate(texts):
                if place == 10:
                    self.assertTrue(shared.stop_question())
            return []

        with self.assertRaisesRegex(GivenUp, "it was stopped"):
            shared.ask(Owner("client", "r"), [Statement(b"r:", b" SELECT * FROM m")], lambda: stopped)
        self.assertEqual(shared.position, 37)

    def test_long_answers_are_bounded(self) -> None:
        shared = self.sessions()
        values = ", ".join(f"({time}, 1, 1)" for time in range(1000))
        self.say(shared, "w", *(f"INSERT INTO m VALUES {values}" for _ in range(20)))
        keep = FirstRows(10)
        (told,) = shared.ask(Owner("client", "r"), [Statement(b"r:", b" SELECT * FROM m")], lambda: keep)
        self.assertEqual((len(told.reply.rows), keep.count), (10, 20005))

    def test_too_many_stale_ranges_are_told_as_one_that_holds_them(self) -> None:
        with mock.patch.object(module, "MOST_RANGES", 3):
            kept = bounded_ranges(f"stale {10 * place}..{10 * place + 5}" for place in range(6))
        self.assertEqual(kept, [(0, 5), (10, 15), (20, 55)])


class TurnsTest(unittest.TestCase):
    def test_in_order(self) -> None:
        turns, order = Turns(), []

        def enter(number: int) -> None:
            with turns:
                order.append(number)

        threads = [threading.Thread(target=enter, args=(number,)) for number in range(20)]
        with turns:
            for place, thread in enumerate(threads, 1):
                thread.start()
                while len(turns.waiting) < place:
                    time.sleep(0.001)
        for thread in threads:
            thread.join()
        self.assertEqual(order, list(range(20)))
        with turns:
            self.assertEqual(order, list(range(20)))


if __name__ == "__main__":
    unittest.main()
