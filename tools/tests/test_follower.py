"""Copies that follow a journal while another process writes."""
import os
import random
import shutil
import signal
import subprocess
import sys
import tempfile
import time
import unittest
from collections.abc import Callable
from pathlib import Path
from typing import Any
from unittest import mock

from tests.serving import OverFolder, Writer
from tsqlib import copies, follower, programs
from tsqlib.follower import Follower, asks_only, folder_to_ask, held_by, open_snapshot
from tsqlib.frames import FIRST
from tsqlib.messages import Trouble

TOOLS = Path(__file__).resolve().parents[1]
QUESTIONS = b"a: SELECT * FROM m\na: SELECT * FROM c\n"


class WithCopies(OverFolder):
    """A folder, and a place for copies of its journal."""

    def setUp(self) -> None:
        super().setUp()
        room = tempfile.TemporaryDirectory()
        self.addCleanup(room.cleanup)
        patch = mock.patch.object(tempfile, "tempdir", room.name)
        patch.start()
        self.addCleanup(patch.stop)
        self.room = Path(room.name)

    def copies(self) -> list[Path]:
        return list(self.room.glob("tsq-*/copy-*"))


class FollowerTest(WithCopies):
    def follow(self, **how: Any) -> Follower:
        found = Follower(self.folder, **how)
        self.addCleanup(found.close)
        return found

    def answers(self, folder: str | Path) -> bytes:
        status, output = programs.call(["run"], QUESTIONS, folder)
        self.assertEqual(status, 0)
        return output

    def check(self, found: Follower) -> None:
        """That the copy answers as the journal does, which nobody holds now."""
        self.assertEqual(self.answers(found.folder), self.answers(self.folder))
        self.assertEqual(
            programs.call(["check"], b"", found.folder)[1].split(b"\n")[0], f"HISTORY @{found.position}".encode()
        )

    def run_script(self, *texts: str) -> None:
        programs.call(["run"], "".join(f"a: {text}\n" for text in texts).encode(), self.folder)

    def test_frames_that_come_are_appended(self) -> None:
        with mock.patch.object(follower, "ENOUGH", 300):
            found = self.follow()
            self.check(found)
            self.assertFalse(found.has_news() or found.step())
            for number in range(30):
                self.run_script(*[f"INSERT INTO m VALUES ({13 * number}, 1, {number})"] * (number % 4 + 1))
                self.assertTrue(found.has_news() and found.step())
                self.assertFalse(found.has_news() or found.step())
                self.check(found)

    def test_beside_a_writer(self) -> None:
        writer, found = Writer(self.folder), self.follow()
        writer.say("ROLLBACK")
        self.assertEqual(held_by(self.folder), writer.program.pid)
        for number in range(20):
            told = writer.say(f"INSERT INTO m VALUES ({number}, 1, 1)")
            self.assertTrue(found.step())
            self.assertEqual(told, f"w: COMMIT @{found.position} +1 -0")
            self.assertIn(f"ANSWER @{found.position} ", self.answers(found.folder).decode())
        self.assertEqual(writer.end(), 1)
        self.assertIsNone(held_by(self.folder))
        self.check(found)

    def test_it_starts_over_after_a_checkpoint(self) -> None:
        found = self.follow()
        for _ in range(3):
            programs.call(["checkpoint"], b"", self.folder)
            self.assertTrue(found.has_news() and found.step())
            self.check(found)
            self.run_script("INSERT INTO m VALUES (5, 1, 1)")
            self.assertTrue(found.step())
            self.check(found)

    def test_it_starts_over_where_the_file_is_another_one(self) -> None:
        journal, kept = Path(self.folder, "tsctl.journal"), Path(self.folder, "kept")
        shutil.copyfile(journal, kept)
        self.run_script("INSERT INTO m VALUES (5, 1, 1)", "DELETE FROM m WHERE time = 12")
        found = self.follow()
        ways: list[Callable[[Path, Path], object]] = [shutil.copyfile, os.replace]
        for put_back in ways:
            shutil.copyfile(kept, self.room / "again")
            put_back(self.room / "again", journal)
            self.assertTrue(found.has_news() and found.step())
            self.assertEqual(found.position, 7)
            self.check(found)
            self.run_script("DELETE FROM m WHERE time = 25")
            self.assertTrue(found.step())
            self.check(found)
        # Put back and longer than before: the bytes before the end aren't those that were read.
        shutil.copyfile(kept, journal)
        self.run_script("INSERT INTO m VALUES (7, 1, 1), (8, 1, 1), (9, 1, 1)", "INSERT INTO m VALUES (6, 1, 1)")
        self.assertTrue(found.step())
        self.check(found)

    def test_journals_without_events(self) -> None:
        journal = Path(self.folder, "tsctl.journal")
        for content in (b"", b"TSCTL", b"TSCTLJ01", b"TSCTLJ01\0", b"\1" * 9):
            journal.write_bytes(content)
            with self.subTest(content), Follower(self.folder) as found:
                self.assertEqual((found.position, found.step()), (0, False))
                journal.unlink()
                self.run_script("CREATE TABLE t (time BIGINT)")
                self.assertTrue(found.step())
                self.assertEqual(found.position, 1)

    def test_without_room_for_an_image(self) -> None:
        with mock.patch.object(follower, "ENOUGH", 300):
            found = self.follow()
            copied = follower.copy_bytes

            def copy_bytes(source: int, start: int, end: int, target: int, place: int) -> None:
                if place == FIRST:
                    raise OSError(28, "No space left on device")
                copied(source, start, end, target, place)

            values = ", ".join(f"({time}, 1, 1)" for time in range(900))
            with mock.patch.object(follower, "copy_bytes", copy_bytes):
                self.run_script(f"INSERT INTO m VALUES {values}")
                self.assertTrue(found.step())
            self.assertFalse(found.has_image)
            self.check(found)
            self.run_script(f"INSERT INTO m VALUES {values}")
            self.assertTrue(found.step())
            self.check(found)

    def test_what_is_wrong_is_said(self) -> None:
        journal = Path(self.folder, "tsctl.journal")
        whole = journal.read_bytes().rstrip(b"\0") + b"\0"
        for content, words in (
            (whole[:-2], "damaged at"),
            (b"X" + whole[1:], "damaged at 0"),
            (None, "has no journal"),
        ):
            journal.unlink() if content is None else journal.write_bytes(content)
            with self.subTest(words), self.assertRaisesRegex(Trouble, words):
                Follower(self.folder)
        self.assertEqual(self.copies(), [])

    def test_the_dictionary_is_copied_too(self) -> None:
        found, names = self.follow(), Path(self.folder, "tsctl.names")
        names.write_text("x")
        self.run_script("INSERT INTO m VALUES (5, 1, 1)")
        found.step()
        self.assertEqual((found.folder / "tsctl.names").read_text(), "x")

    def test_by_chance(self) -> None:
        rng = random.Random(5)
        with mock.patch.object(follower, "ENOUGH", 2000), mock.patch.object(follower, "SEAM", 64):
            found = self.follow()
            for _ in range(60):
                step = rng.randrange(8)
                if step == 0:
                    programs.call(["checkpoint"], b"", self.folder)
                elif step == 1:
                    self.run_script("CALL refresh_continuous_aggregate('c', NULL, NULL)")
                elif step == 2:
                    self.run_script(f"DELETE FROM m WHERE time < {rng.randrange(50)}")
                else:
                    rows = ", ".join(
                        f"({rng.randrange(100)}, {rng.randrange(3)}, {rng.randrange(9)})"
                        for _ in range(rng.randrange(1, 20))
                    )
                    self.run_script(f"INSERT INTO m VALUES {rows}")
                if rng.randrange(3):
                    found.step()
                    self.check(found)


class CopiesTest(WithCopies):
    setup = "a: CREATE TABLE m (time BIGINT)\n"

    def test_a_copy_is_private_and_removed(self) -> None:
        with open_snapshot(self.folder) as snapshot:
            self.assertEqual(snapshot.position, 1)
            self.assertEqual(self.copies(), [snapshot.folder])
            for path in (snapshot.folder, snapshot.folder.parent, snapshot.folder / "tsctl.journal"):
                self.assertEqual(path.stat().st_mode & 0o077, 0)
        self.assertEqual(self.copies(), [])

    def test_a_copy_that_its_process_removes_meanwhile(self) -> None:
        path, locked = copies.room(), copies.locked
        (path / "copy-gone").mkdir()

        def gone(file: Path, how: int) -> int | None:
            shutil.rmtree(file.parent)
            return locked(file, how)

        with mock.patch.object(copies, "locked", gone):
            self.assertEqual(copies.remove_left(path), 0)

    def test_copies_are_bounded(self) -> None:
        with mock.patch.object(copies, "MOST_COPIES", 2), open_snapshot(self.folder), open_snapshot(self.folder):
            with self.assertRaisesRegex(Trouble, "has 2 copies"), open_snapshot(self.folder):
                pass
        with open_snapshot(self.folder):
            pass

    def test_a_folder_of_others_isnt_taken(self) -> None:
        (self.room / f"tsq-{os.getuid()}").mkdir(mode=0o777)
        (self.room / f"tsq-{os.getuid()}").chmod(0o777)
        with self.assertRaisesRegex(Trouble, "this user alone"), open_snapshot(self.folder):
            pass

    def test_endings_by_signals(self) -> None:
        code = (
            "import sys, time; sys.path.insert(0, sys.argv[1]); from tsqlib.follower import open_snapshot\nwith"
            " open_snapshot(sys.argv[2]): print('on', flush=True); time.sleep(60)"
        )
        for number, left in (
            (signal.SIGTERM, 0),
            (signal.SIGHUP, 0),
            (signal.SIGINT, 0),
            (signal.SIGKILL, 1),
            (signal.SIGKILL, 1),
        ):
            call = [sys.executable, "-c", code, str(TOOLS), self.folder]
            with subprocess.Popen(
                call, env=os.environ | {"TMPDIR": str(self.room)}, stdout=subprocess.PIPE, stderr=subprocess.DEVNULL
            ) as program:
                assert program.stdout
                program.stdout.readline()
                program.send_signal(number)
            self.assertEqual(len(self.copies()), left, number)
        with open_snapshot(self.folder):
            self.assertEqual(len(self.copies()), 1, "what a kill has left is removed")

    def test_the_folder_in_which_a_script_runs(self) -> None:
        here = Path(self.folder)
        with folder_to_ask(self.folder, QUESTIONS) as folder:
            self.assertEqual(folder, here)
        writer = Writer(self.folder)
        writer.say("ROLLBACK")
        with folder_to_ask(self.folder, b"a: DELETE FROM m\n") as folder:
            self.assertEqual(folder, here, "what writes needs the folder itself")
        with mock.patch.object(follower, "say") as said, folder_to_ask(self.folder, QUESTIONS) as folder:
            self.assertNotEqual(folder, here)
        said.assert_called_once_with(f"process {writer.program.pid} holds {here}: answers are those of a copy at @1")
        writer.end()
        with mock.patch.object(follower, "say"), folder_to_ask(self.folder, QUESTIONS, is_wanted=True) as folder:
            self.assertNotEqual(folder, here)
        with self.assertRaisesRegex(Trouble, "for questions"), folder_to_ask(
            self.folder, b"a: DELETE FROM m\n", is_wanted=True
        ):
            pass


class QuestionsTest(unittest.TestCase):
    def test_questions(self) -> None:
        for script, wanted in (
            (b"", True), (b"a: SELECT * FROM m\n-- x\n\nb: select time_bucket(1, t), count(*) FROM m GROUP BY 1;",
                          True),
            (b"a: BEGIN READ ONLY\na: COMMIT;\na: ROLLBACK", True), (b"a: BEGIN\n", False),
            (b"a: SELECT drop_chunks('m', 7)", False),
            (b"a: CALL refresh_continuous_aggregate('c', 0, 10)", False),
            (b"a: SELECT * FROM m\na: DELETE FROM m", False),
            (b"SELECT * FROM m", True), (b"a: TICK 7", False),
            (b"a: SELECT calendar_bucket('month', t), count(*) FROM m GROUP BY 1", True),
        ):  # fmt: skip
            with self.subTest(script):
                self.assertEqual(asks_only(script), wanted)


if __name__ == "__main__":
    unittest.main()
