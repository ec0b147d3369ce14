"""`tsq backup` and `tsq verify`: copies beside a writer, and changed bytes."""
from __future__ import annotations

import contextlib
import io
import os
import random
import shutil
import subprocess
import tempfile
import threading
import unittest
from pathlib import Path

from tests.serving import NEEDS
from tsqlib import programs
from tsqlib.main import options_of
from tsqlib.messages import Trouble
from tsqlib.names import Names
from tsqlib.sums import BLOCK, Sums, read_sums

SETUP = """a: CREATE TABLE m (time BIGINT NOT NULL, v BIGINT)
a: SELECT create_hypertable('m', 'time', chunk_time_interval => 100)
a: CREATE MATERIALIZED VIEW c WITH (timescaledb.continuous) AS SELECT time_bucket(10, time) AS b, sum(v) AS s FROM m \
GROUP BY b WITH NO DATA
"""
# A journal of several blocks.
ROWS = "".join(
    f"a: INSERT INTO m VALUES {', '.join(f'({time}, {time * time})' for time in range(start, start + 500))}\n"
    for start in range(0, 10000, 500)
)


@NEEDS
class BackupTest(unittest.TestCase):
    def setUp(self) -> None:
        folder = tempfile.TemporaryDirectory()
        self.addCleanup(folder.cleanup)
        self.top = Path(folder.name)
        self.folder = self.top / "data"
        self.folder.mkdir()
        self.journal, self.copy = self.folder / "tsctl.journal", self.top / "copy"
        self.run_script(SETUP)

    def run_script(self, script: str, folder: Path | None = None) -> bytes:
        return programs.call(["run"], script.encode(), folder or self.folder)[1]

    def call(self, *words: str | Path) -> tuple[int, list[str]]:
        """The status of a command, and its lines."""
        arguments = options_of([str(word) for word in words])
        with contextlib.redirect_stdout(io.StringIO()) as printed, contextlib.redirect_stderr(printed):
            status = arguments.call(arguments)
        return status, printed.getvalue().splitlines()

    def backup(self) -> list[str]:
        status, lines = self.call("backup", self.folder, self.copy)
        self.assertEqual(status, 0, lines)
        return lines

    def is_wrong(self, path: Path) -> bool:
        """Whether something is found wrong."""
        status, lines = self.call("verify", path)
        self.assertEqual(status == 1, any(line.startswith("WRONG: ") for line in lines))
        return status == 1

    def flip(self, path: Path, place: int, bit: int = 0) -> None:
        """Changes a bit of a file."""
        with open(path, "r+b") as file:
            file.seek(place)
            (byte,) = file.read(1)
            file.seek(place)
            file.write(bytes([byte ^ 1 << bit]))

    # ---- copies

    def test_a_copy_answers_as_the_folder_does(self) -> None:
        Names.read(self.folder).remember([("v", "pump-a")], {}, "s")
        self.run_script(
            ROWS + "a: CALL refresh_continuous_aggregate('c', NULL, NULL)\na: INSERT INTO m VALUES (7, 7)\n"
        )
        lines = self.backup()
        self.assertRegex(lines[0], r"copy: @26, \d+ bytes, checked by tsctl check$")
        self.assertEqual([Path(line).name for line in lines[1:]], ["copy.sums", "copy.names"])
        restored = self.top / "restored"
        restored.mkdir()
        shutil.copy(self.copy, restored / "tsctl.journal")
        shutil.copy(f"{self.copy}.names", restored / "tsctl.names")
        question = "a: SELECT * FROM c\na: SELECT * FROM m\n"
        self.assertEqual(self.run_script(question, restored), self.run_script(question))
        self.assertEqual(Names.read(restored).text_of("v", 1), "pump-a")
        self.assertFalse(self.is_wrong(self.copy))
        self.assertFalse(self.is_wrong(self.folder))

    def test_copies_beside_a_writer_are_whole(self) -> None:
        run = subprocess.Popen(
            [programs.tsctl(), "run"], cwd=self.folder, stdin=subprocess.PIPE, stdout=subprocess.PIPE
        )
        is_ended = threading.Event()

        def feed() -> None:
            assert run.stdin and run.stdout
            for time in range(100000):
                if is_ended.is_set():
                    return
                run.stdin.write(f"w: INSERT INTO m VALUES ({time}, {time})\n".encode())
                run.stdin.flush()
                run.stdout.readline()

        writer = threading.Thread(target=feed)
        writer.start()
        try:
            for number in range(5):
                self.copy = self.top / f"copy{number}"
                self.backup()
        finally:
            is_ended.set()
            writer.join()
            run.communicate()
        content = self.journal.read_bytes()
        for number in range(5):
            copy = (self.top / f"copy{number}").read_bytes()
            self.assertEqual((copy[:-1], copy[-1]), (content[: len(copy) - 1], 0))
            self.assertFalse(self.is_wrong(self.top / f"copy{number}"))
        self.assertFalse(self.is_wrong(self.folder))

    def test_a_copy_is_whole_or_not_there(self) -> None:
        self.flip(self.journal, 12, 7)
        before = sorted(os.listdir(self.folder))
        with self.assertRaisesRegex(Trouble, "damaged at 8"):
            self.call("backup", self.folder, self.copy)
        self.flip(self.journal, 12, 7)
        self.flip(self.journal, 13, 6)
        with self.assertRaisesRegex(Trouble, "`tsctl check` of the copy ended with 6"):
            self.call("backup", self.folder, self.copy)
        self.flip(self.journal, 13, 6)
        for folder, file in [(self.top / "nowhere", self.copy), (self.folder, self.top / "nodir" / "copy")]:
            with self.assertRaises(Trouble):
                self.call("backup", folder, file)
        self.assertEqual((sorted(os.listdir(self.folder)), os.listdir(self.top)), (before, ["data"]))
        self.backup()
        with self.assertRaisesRegex(Trouble, "is there already"):
            self.call("backup", self.folder, self.copy)

    # ---- changed bytes

    def test_each_flipped_bit_of_a_copy_is_noticed(self) -> None:
        self.run_script(ROWS)
        self.backup()
        content, rng = self.copy.read_bytes(), random.Random(7)
        self.assertGreater(len(content), 2 * BLOCK)
        for place in [*(rng.randrange(len(content)) for _ in range(60)), 7, 8, len(content) - 1]:
            self.flip(self.copy, place, rng.randrange(8))
            self.assertTrue(self.is_wrong(self.copy), place)
            start = place // BLOCK * BLOCK
            if place < len(content) - 1:
                end = min(start + BLOCK, len(content) - 1)
                self.assertIn(f"WRONG: bytes {start}..{end} have changed since @23", self.call("verify", self.copy)[1])
            self.copy.write_bytes(content)
        self.assertFalse(self.is_wrong(self.copy))

    def test_other_changes_of_a_copy_are_noticed(self) -> None:
        Names.read(self.folder).remember([("v", "pump-a")])
        self.backup()
        content = self.copy.read_bytes()
        for changed in (content[:-1], content[:50], b"", content + b"\0", content + b"\1", content[:-1] + b"\1"):
            self.copy.write_bytes(changed)
            self.assertTrue(self.is_wrong(self.copy), len(changed))
        self.copy.write_bytes(content)
        names = Path(f"{self.copy}.names")
        names.write_text(names.read_text().replace("pump-a", "pump-b"))
        self.assertTrue(self.is_wrong(self.copy))
        names.unlink()
        self.assertTrue(self.is_wrong(self.copy))

    def test_a_journal_that_grows_is_compared_up_to_its_copy(self) -> None:
        self.run_script(ROWS)
        self.backup()
        self.run_script("a: INSERT INTO m VALUES (7, 7)\n")
        self.assertFalse(self.is_wrong(self.folder))
        programs.call(["checkpoint"], b"", self.folder)
        self.run_script("a: INSERT INTO m VALUES (8, 7)\n")
        self.assertFalse(self.is_wrong(self.folder))
        self.flip(self.journal, 5000)
        status, lines = self.call("verify", self.folder)
        self.assertEqual((status, lines[0]), (1, f"WRONG: bytes 0..{BLOCK} have changed since @23"))

    def test_events_after_a_changed_commit_byte_are_told(self) -> None:
        self.run_script("a: INSERT INTO m VALUES (7, 7)\n" * 3)
        content = self.journal.read_bytes()
        places, place = [], 8
        while content[place] == 1:
            places.append(place)
            place += 5 + int.from_bytes(content[place + 1 : place + 5], "little")
        for number, place in enumerate(places[:-1]):
            self.flip(self.journal, place)
            status, lines = self.call("verify", self.folder)
            follow = len(places) - number
            self.assertEqual(status, 1)
            self.assertIn(f"the commit byte at {place} is 0, and {follow} events follow that were committed", lines[1])
            status, lines = self.call("backup", self.folder, self.top / f"copy{place}")
            self.assertEqual(status, 1)
            self.assertTrue(any("WRONG: the commit byte" in line for line in lines))
            self.flip(self.journal, place)
        # The last one may be that of a run that was ended in the middle.
        self.flip(self.journal, places[-1])
        status, lines = self.call("verify", self.folder, "--sums", self.top / "none")
        self.assertEqual((status, "aren't zero: a run was ended while it wrote an event" in lines[1]), (0, True))
        self.flip(self.journal, places[-1], 0)
        self.flip(self.journal, places[-1], 3)
        self.assertIn("tsctl writes 0 or 1", self.call("verify", self.folder, "--sums", self.top / "none")[1][1])

    # ---- what was loaded

    def test_a_restored_copy_remembers_its_loads(self) -> None:
        readings = self.top / "readings.csv"
        readings.write_text("time,v\n1,5\n150,6\n")
        words = ("--table", "m", "--header")
        self.assertEqual(self.call("load", readings, "--into", self.folder, *words)[0], 0)
        lines = self.backup()
        self.assertEqual([Path(line).name for line in lines[1:]], ["copy.sums", "copy.names", "copy.load"])
        self.assertFalse(self.is_wrong(self.copy))
        restored = self.top / "restored"
        restored.mkdir()
        shutil.copy(self.copy, restored / "tsctl.journal")
        shutil.copy(f"{self.copy}.load", restored / "tsctl.load")
        status, lines = self.call("load", readings, "--into", restored, *words)
        self.assertEqual((status, lines[0]), (0, "tsq: this input was loaded already; --again loads it once more"))
        self.assertEqual(self.run_script("a: SELECT * FROM m\n", restored),
                         b"a: ANSWER @5 rows 2 stale 0\n1|5\n150|6\n")  # fmt: skip
        Path(f"{self.copy}.load").write_text("another")
        self.assertTrue(self.is_wrong(self.copy))
        self.assertIn(f"WRONG: {self.copy}.load has changed", self.call("verify", self.copy)[1])

    # ---- the file of sums

    def test_sums_are_read_as_they_were_written(self) -> None:
        path = self.top / "sums"
        for sums in (
            Sums(7, 9, "1", ("a" * 64,)),
            Sums(0, 2 * BLOCK + 1, "2", ("a" * 64, "b" * 64, "c" * 64), "d" * 64),
            Sums(0, 9, "1", ("a" * 64,), "d" * 64, "e" * 64),
            Sums(0, 9, "1", ("a" * 64,), load="e" * 64),
        ):
            path.write_text(sums.text())
            self.assertEqual(read_sums(path), sums)
            for changed in (sums.text()[:-3], sums.text().replace("block 0", "block 1"), "", "\xff",
                            sums.text().replace("bytes", "bites"),
                            sums.text().replace("a" * 64 + "\n", "a" * 63 + "\n")):  # fmt: skip
                path.write_text(changed)
                with self.assertRaises(Trouble):
                    read_sums(path)
        self.assertIsNone(read_sums(self.top / "nowhere"))
