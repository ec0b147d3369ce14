"""Answers that follow what another process writes, in a pipe and at a terminal."""
import fcntl
import os
import pty
import re
import signal
import struct
import subprocess
import sys
import termios
import time
import unittest

from tests.serving import TSQ, OverFolder, Writer, stream
from tsqlib.messages import Trouble
from tsqlib.watch import statement_of


class StatementTest(unittest.TestCase):
    def test_statements(self) -> None:
        for question, wanted in (
            ("hours", "SELECT * FROM hours"),
            (" Hours ", "SELECT * FROM Hours"),
            ("select  *\nfrom m", "select * from m"),
        ):
            self.assertEqual(statement_of(question), wanted)
        for question in (
            "DELETE FROM m",
            "a: SELECT * FROM m",
            "",
            "SELECT drop_chunks('m', 5)",
            "h\u00f6he",
            "m; DELETE FROM m",
        ):
            with self.assertRaises(Trouble):
                statement_of(question)


class WatchTest(OverFolder):
    def words(self, *words: str) -> list[str]:
        return [sys.executable, str(TSQ), "watch", *words, "--in", self.folder, "--every", "0.2"]

    def test_in_a_pipe(self) -> None:
        writer = Writer(self.folder)
        writer.say("ROLLBACK")
        with subprocess.Popen(self.words("c", "--count", "2"), stdout=subprocess.PIPE, text=True) as program:
            first = [stream(program.stdout).readline() for _ in range(7)]
            self.assertRegex(first[0], r"^@7  written \d+ \w+ ago  4 rows, 2 stale\n$")
            self.assertEqual([line.split() for line in first[3:]],
                             [["10", "1", "5.000", "5/1", "1"], ["20", "1", "7.000", "7/1", "1", "stale"],
                                                                   ["20", "2", "8.000", "8/1", "1", "stale"],
                                                                   ["30", "1", "null", "1"]])  # fmt: skip
            writer.say("INSERT INTO m VALUES (31, 2, 1)")
            rest = stream(program.stdout).read()
        self.assertIn("@8  written", rest)
        self.assertEqual(program.returncode, 0)
        self.assertEqual(writer.end(), 1)

    def test_what_is_refused(self) -> None:
        done = subprocess.run(self.words("nosuch"), capture_output=True, text=True)
        self.assertEqual((done.returncode, done.stdout), (1, ""))
        self.assertIn("E06", done.stderr)
        done = subprocess.run(self.words("DELETE FROM m"), capture_output=True, text=True)
        self.assertEqual(done.returncode, 2)

    def test_dates(self) -> None:
        question = "SELECT * FROM c WHERE b >= '1970-01-01 00:00:30' AND b < now() - INTERVAL '1 day'"
        done = subprocess.run(self.words(question, "--times", "s", "--count", "1"), capture_output=True, text=True)
        self.assertEqual((done.returncode, done.stdout.split("\n")[3].split()[1]), (0, "00:00:30"), done)
        done = subprocess.run(self.words(question, "--count", "1"), capture_output=True, text=True)
        self.assertEqual(done.returncode, 1, "without a unit it is for tsctl to refuse")
        done = subprocess.run(
            self.words("SELECT * FROM c WHERE b >= 'x'", "--times", "s"), capture_output=True, text=True
        )
        self.assertEqual((done.returncode, done.stdout), (2, ""))
        self.assertIn("'x' is no date", done.stderr)

    def test_at_a_terminal(self) -> None:
        main, other = pty.openpty()
        # 12 lines of 60 columns.
        fcntl.ioctl(other, termios.TIOCSWINSZ, struct.pack("HHHH", 12, 60, 0, 0))
        values = ", ".join(f"({10 * place}, 1, {place})" for place in range(5, 40))
        writer = Writer(self.folder)
        writer.say(f"INSERT INTO m VALUES {values}")
        writer.say("CALL refresh_continuous_aggregate('c', NULL, NULL)")
        environment = os.environ | {"TERM": "xterm", "NO_COLOR": "1"}
        program = subprocess.Popen(
            self.words("c"), stdin=other, stdout=other, stderr=other, env=environment, start_new_session=True
        )
        self.addCleanup(program.kill)
        self.assertIn("@10", self.screen(main, "@10"))
        drawn = self.screen(main, "Ctrl-C ends", "earlier rows)", "390")
        self.assertRegex(drawn, r"\(\d\d earlier rows\)")
        self.assertIn("390", drawn)
        writer.say("INSERT INTO m VALUES (395, 1, 1)")
        drawn = self.screen(main, "@11")
        self.assertIn("stale", drawn)
        program.send_signal(signal.SIGINT)
        self.assertEqual(program.wait(10), 0)
        self.assertIn("\x1b[?25h", self.screen(main, "[?25h"), "the cursor is shown again")
        writer.end()

    def screen(self, terminal: int, *texts: str) -> str:
        """What is drawn, up to a screen that has all these texts. A screen may come in several pieces."""
        held, end = "", time.monotonic() + 20
        while time.monotonic() < end:
            held += os.read(terminal, 65536).decode()
            frames = re.split(r"\x1b\[H", held)
            if any(all(text in frame for text in texts) for frame in frames[-2:]):
                return "".join(frames[-2:])
        self.fail(held)


if __name__ == "__main__":
    unittest.main()
