"""`tsq run` as a program: replies come one by one, and what was answered stays answered."""
from __future__ import annotations

import os
import signal
import subprocess
import sys
import tempfile
import time
import unittest
from pathlib import Path

from tests.serving import NEEDS, await_that
from tsqlib import programs
from tsqlib.programs import Ended, Program

TSQ = Path(__file__).resolve().parents[1] / "tsq"
SETUP = b"""a: CREATE TABLE m (time BIGINT NOT NULL, v BIGINT)
a: SELECT create_hypertable('m', 'time', chunk_time_interval => 100)
a: INSERT INTO m VALUES (1, 7), (2, 8)
"""
# A program that answers a COMMIT at once, and nothing else, and says how it ended.
SLOW = """#!/bin/sh
echo $$ >program
trap 'exit 0' TERM
while read -r line; do
  case "$line" in *COMMIT*) echo "${line%%:*}: FAULT E18 no_block" ;; *) sleep 60 & echo $! >child; wait ;; esac
done
"""


class InFolder(unittest.TestCase):
    """Tests in a folder of their own."""

    def setUp(self) -> None:
        folder = tempfile.TemporaryDirectory()
        self.addCleanup(folder.cleanup)
        self.folder = Path(folder.name)

    def begin(self, *words: str, **environment: str) -> subprocess.Popen[bytes]:
        """tsq with these words, whose input is a pipe."""
        child = subprocess.Popen(
            [sys.executable, TSQ, *words], cwd=self.folder, stdin=subprocess.PIPE, stdout=subprocess.PIPE,
            stderr=subprocess.PIPE, env=os.environ | environment,
        )  # fmt: skip
        self.addCleanup(child.communicate)
        self.addCleanup(child.kill)
        return child

    def run_tsq(self, *words: str, script: bytes = b"", **environment: str) -> tuple[int, str, str]:
        """The status of tsq, and what it has printed and said."""
        words = (sys.executable, str(TSQ), *words)
        done = subprocess.run(
            words, cwd=self.folder, input=script, capture_output=True, timeout=120, env=os.environ | environment
        )
        return done.returncode, done.stdout.decode(), done.stderr.decode()

    def slow(self) -> str:
        """A program that doesn't answer most lines."""
        path = self.folder / "slow"
        path.write_text(SLOW)
        path.chmod(0o755)
        return str(path)

    def is_running(self, name: str) -> bool:
        """Whether the process whose number a file has is there still. One that was killed may take a moment to end."""
        stat = Path(f"/proc/{(self.folder / name).read_text().strip()}/stat")

        def has_ended() -> bool:
            try:
                return stat.read_text().split()[2] == "Z"
            except OSError:
                return True

        return not await_that(has_ended, 5)

    def await_file(self, name: str) -> None:
        """Waits until a file has something."""
        path = self.folder / name
        await_that(lambda: path.exists() and path.stat().st_size > 0)


@NEEDS
class StreamTest(InFolder):
    def test_each_reply_comes_at_once(self) -> None:
        child = self.begin()
        assert child.stdin and child.stdout
        for line, wanted in (
            (SETUP, [b"a: TABLE @1\n", b"a: HYPERTABLE @2\n", b"a: COMMIT @3 +2 -0\n"]),
            (b"a: BEGIN\n", [b"a: BEGIN\n"]),
        ):
            child.stdin.write(line)
            child.stdin.flush()
            self.assertEqual([child.stdout.readline() for _ in wanted], wanted)

    def test_a_statement_over_lines(self) -> None:
        programs.call(["run"], SETUP, self.folder)
        script = b"a: DELETE FROM m\n  WHERE v = 7;\na: SELECT * FROM m\n"
        cases: tuple[list[str], ...] = ([], ["script.sql"], ["--par"])
        for words in cases:
            (self.folder / "script.sql").write_bytes(script)
            status, out, said = self.run_tsq(*words, script=script)
            self.assertEqual((status, "   2  8\n" in out, "7" in out.split("v\n")[1]), (0, True, False), said)

    def test_a_script_that_is_refused_runs_nothing(self) -> None:
        programs.call(["run"], SETUP, self.folder)
        (self.folder / "script.sql").write_bytes(b"a: DELETE FROM m\n  WHERE v = 7\na: BEGIN\n")
        for words in (["script.sql"], ["--par", "script.sql"]):
            status, out, said = self.run_tsq(*words)
            self.assertEqual((status, out), (2, ""))
            self.assertIn("nothing was run", said)
        self.assertEqual(programs.call(["check"], b"", self.folder)[1], b"HISTORY @3\n")

    def test_numbers_of_lines_are_those_of_the_script(self) -> None:
        _, out, _ = self.run_tsq(script=b"\na: SELECT\n  *;\n\n\xff\nno session\n")
        self.assertEqual(
            [line for line in out.splitlines() if "FAULT" in line or " | " in line][:2],
            ["a: FAULT E05 syntax at 12", "  2 | a: SELECT *;"],
        )
        self.assertIn("line 5: FAULT E02", out)
        self.assertIn("line 6: FAULT E03", out)


class EndingTest(InFolder):
    def test_a_signal_leaves_nothing_behind_and_keeps_what_was_answered(self) -> None:
        for number, status in ((signal.SIGINT, 130), (signal.SIGTERM, 143)):
            child = self.begin(TSCTL=self.slow())
            assert child.stdin and child.stdout
            child.stdin.write(b"a: COMMIT\na: BEGIN\n")
            child.stdin.flush()
            self.assertEqual(child.stdout.readline(), b"a: FAULT E18 no_block\n")
            self.await_file("child")
            child.send_signal(number)
            _, said = child.communicate(timeout=20)
            self.assertEqual((child.returncode, b"line 2 has no reply" in said), (status, True))
            self.assertEqual([self.is_running(name) for name in ("program", "child")], [False, False])
            (self.folder / "child").unlink()

    def test_a_signal_while_nothing_is_asked_ends_it(self) -> None:
        child = self.begin(TSCTL=self.slow())
        assert child.stdin and child.stdout
        child.stdin.write(b"a: COMMIT\n")
        child.stdin.flush()
        child.stdout.readline()
        child.stdout.readline()
        time.sleep(0.2)
        child.send_signal(signal.SIGTERM)
        self.assertEqual((child.wait(20), self.is_running("program")), (143, False))


@NEEDS
class HeldTest(InFolder):
    def test_the_process_that_holds_the_folder_is_named(self) -> None:
        programs.call(["run"], SETUP, self.folder)
        query, row = b"a: SELECT * FROM m\n", b"a: INSERT INTO m VALUES (3, 9)\n"
        (self.folder / "query.sql").write_bytes(query)
        (self.folder / "row.sql").write_bytes(row)
        (self.folder / "rows.csv").write_bytes(b"4,9\n")
        load = ["load", "rows.csv", "--into", ".", "--table", "m", "--columns", "time,v"]
        with Program(self.folder) as holder:
            holder.ask(b"a: COMMIT")
            held = f"tsq: process {holder.process.pid} holds .: "
            cases: list[tuple[list[str], bytes]] = [
                ([], query), ([], row), (["row.sql"], b""), (["--par"], query), (load, b""),
            ]  # fmt: skip
            for words, script in cases:
                with self.subTest(words=words, script=script):
                    status, out, said = self.run_tsq(*words, script=script)
                    self.assertEqual((status, out, said.startswith(f"{held}end it first")), (2, "", True), said)
                    self.assertNotIn("disk fault", said)
            status, out, said = self.run_tsq("query.sql")
            self.assertEqual((status, said), (0, f"{held}answers are those of a copy at @3\n"))
            self.assertIn("   2  8\n", out)
        self.assertEqual(self.run_tsq(script=row)[1], "a: COMMIT @4 +1 -0\n")


@NEEDS
class ProgramTest(InFolder):
    def test_replies_have_the_number_of_their_line(self) -> None:
        with Program(self.folder) as program:
            for line in SETUP.splitlines():
                self.assertIsNone(program.ask(line).fault())
            reply = program.ask(b"a: SELECT * FROM m", 70)
            self.assertEqual((reply.line.number, reply.rows, reply.position()), (70, [["1", "7"], ["2", "8"]], 3))
            self.assertEqual(program.ask(b"x y", 9).heads, ["line 9: FAULT E03 no_session"])
            for raw in (b"a: BEGIN\n", b"", b" -- x"):
                with self.assertRaises(ValueError):
                    program.ask(raw)
            self.assertEqual(program.end(), 1)

    def test_a_program_that_ends_is_told(self) -> None:
        (self.folder / "tsctl.journal").write_bytes(b"no journal at all")
        with Program(self.folder) as program, self.assertRaises(Ended) as caught:
            program.ask(b"a: BEGIN")
        self.assertEqual(caught.exception.status, 6)


if __name__ == "__main__":
    unittest.main()
