"""The prompt: what is typed, what may follow, and a conversation at a pseudo-terminal."""
from __future__ import annotations

import os
import pty
import re
import select
import signal
import subprocess
import sys
import time
import unittest

from tests.serving import NEEDS
from tests.test_run import SETUP, TSQ, InFolder
from tsqlib import programs
from tsqlib.completion import fitting
from tsqlib.names import Names
from tsqlib.schema import Output, Schema
from tsqlib.terminal import cut
from tsqlib.typed import Typed

SECONDS = 60
# Signals that are sent to a prompt, and how long it may take until one is seen. A test ends after so many misses.
ROUNDS = 200
SECONDS_OF_MISS = 5
MOST_MISSES = 3


class TypedTest(unittest.TestCase):
    def test_what_is_a_statement(self) -> None:
        for typed, statements, rest in (
            (["SELECT * FROM m"], ["SELECT * FROM m"], ""),
            (["SELECT *", "FROM m"], ["SELECT * FROM m"], ""),
            (["DELETE FROM m"], [], "DELETE FROM m"),
            (["DELETE FROM m", "WHERE v = 7;"], ["DELETE FROM m WHERE v = 7;"], ""),
            (["x: DELETE FROM m", ";"], ["x: DELETE FROM m ;"], ""),
            (["BEGIN; INSERT INTO m VALUES (1); COMMIT"], ["BEGIN;", "INSERT INTO m VALUES (1);", "COMMIT"], ""),
            (["DELETE FROM m\nWHERE v = 7;\nBEGIN"], ["DELETE FROM m WHERE v = 7;", "BEGIN"], ""),
            (["SELECT * FROM m\nWHERE v = 7"], ["SELECT * FROM m WHERE v = 7"], ""),
            (["SELECT * FROM m\nSELECT * FROM n"], ["SELECT * FROM m", "SELECT * FROM n"], ""),
            (["SELECT * FROM m -- all;", "-- ;", ""], ["SELECT * FROM m"], ""),
            (["INSERT INTO m VALUES ('a;b'); "], ["INSERT INTO m VALUES ('a;b');"], ""),
            (["\\d m"], ["\\d m"], ""),
            (["help", "quit", "Exit;", "?"], ["\\?", "\\q", "\\q", "\\?"], ""),
            ([";", " ; "], [], ""),
            (["INSERT INTO help", "\\q"], ["\\q"], "INSERT INTO help"),
        ):
            taken = Typed()
            self.assertEqual(([it for line in typed for it in taken.add(line)], taken.text), (statements, rest), typed)

    def test_a_delete_that_another_statement_follows_is_not_run(self) -> None:
        for typed in (["DELETE FROM m", "SELECT * FROM m"], ["DELETE FROM m\nSELECT * FROM m"]):
            taken = Typed()
            self.assertEqual([it for line in typed for it in taken.add(line)], ["SELECT * FROM m"])
            self.assertEqual(taken.pushed_aside, ["DELETE FROM m"])


class CompletionTest(unittest.TestCase):
    def test_what_may_follow(self) -> None:
        schema = Schema()
        schema.outputs = {
            "m": Output(["time", "dev"], frozenset([0])),
            "c": Output(["hour", "n"], frozenset([0]), is_view=True),
        }
        schema.sources = {"c": "m"}
        for before, part, wanted in (
            ("", "SEL", ["SELECT"]), ("", "sel", ["select"]), ("", "\\st", ["\\stale"]),
            ("SELECT * ", "", ["FROM", "AS", "AND"]),
            ("SELECT * FROM ", "", ["c", "m"]), ("SELECT * FROM m ", "", ["WHERE"]),
            ("SELECT * FROM c WHERE ", "", ["hour", "n"]),
            ("SELECT * FROM m WHERE time > 5 AND ", "d", ["dev"]), ("INSERT INTO m ", "", ["VALUES (", "("]),
            ("INSERT INTO m (", "", ["dev", "time"]),
            ("CALL refresh_continuous_aggregate('", "", ["c"]), ("SELECT drop_chunks('", "", ["m"]),
            ("x: SELECT * FROM m; DELETE ", "", ["FROM"]),
            ("SELECT time_bucket(5, hour) AS b, sum(n) FROM c GROUP BY ", "", ["b", "hour", "n"]),
            ("SELECT ", "ti", ["time_bucket("]),
            ("ALTER MATERIALIZED VIEW ", "", ["c"]), ("SELECT time_bucket(5, ", "h", ["hour"]),
            ("CREATE ", "mat", ["materialized view"]),
        ):  # fmt: skip
            self.assertEqual(fitting(schema, before, part), wanted, before)


class TerminalTest(unittest.TestCase):
    def test_lines_are_cut(self) -> None:
        self.assertEqual([cut("abcdef", width) for width in (7, 6, 5, 1)], ["abcdef", "abcdef", "abcd\u2026", "\u2026"])


class AtTerminal(InFolder):
    """A prompt at a pseudo-terminal of 60 columns and 30 lines."""

    process = 0
    terminal: int | None = None
    seen = ""

    def open(self, *words: str, **environment: str) -> None:
        process, terminal = pty.fork()
        if process == 0:
            os.chdir(self.folder)
            os.execve(
                sys.executable,
                [sys.executable, str(TSQ), *words],
                os.environ | {"HOME": ".", "TERM": "vt100", "COLUMNS": "60", "LINES": "30"} | environment,
            )
        self.process, self.terminal, self.seen = process, terminal, ""
        self.addCleanup(self.close)

    def close(self) -> None:
        try:
            os.kill(self.process, signal.SIGKILL)
            os.waitpid(self.process, 0)
        except (ProcessLookupError, ChildProcessError):
            pass
        if self.terminal is not None:
            os.close(self.terminal)
        self.terminal = None

    def wait(self, pattern: str, seconds: float = SECONDS) -> str:
        """What is printed up to this, which is taken away."""
        until = time.monotonic() + seconds
        while not (found := re.search(pattern, self.seen)):
            if not select.select([self.terminal], [], [], max(0.0, until - time.monotonic()))[0]:
                self.fail(f"no {pattern} in {self.seen!r}")
            try:
                assert self.terminal is not None
                part = os.read(self.terminal, 65536)
            except OSError:
                part = b""
            if not part:
                self.fail(f"no {pattern} before the end in {self.seen!r}")
            self.seen = re.sub(
                "\x1b\\[\\?[0-9]*[a-z]", "", self.seen + part.decode("utf-8", "replace").replace("\r", "")
            )
        text, self.seen = self.seen[: found.end()], self.seen[found.end() :]
        return text

    def type(self, text: str) -> None:
        assert self.terminal is not None
        os.write(self.terminal, text.encode())

    def status(self) -> int:
        """The exit status, once it has ended."""
        until = time.monotonic() + SECONDS
        while time.monotonic() < until:
            ended, status = os.waitpid(self.process, os.WNOHANG)
            if ended:
                return os.waitstatus_to_exitcode(status)
            select.select([self.terminal], [], [], 0.05)
        self.fail("it doesn't end")


@NEEDS
class PromptTest(AtTerminal):
    def test_a_conversation(self) -> None:
        self.open()
        banner = self.wait("tsq> ")
        self.assertIn("no journal is here yet", banner)
        self.type("SELECT * FROM m\n")
        self.wait("no journal is in")
        self.assertFalse((self.folder / "tsctl.journal").exists())
        for line in SETUP.decode().splitlines():
            self.type(line + "\n")
        self.wait(r"COMMIT @3 \+2 -0\ntsq> ")
        self.type("DELETE FROM m\n")
        self.wait(r"\.\.\.> ")
        self.type("WHERE v = 7;\n")
        self.wait(r"COMMIT @4 \+0 -1\ntsq> ")
        # A paste of two lines is one statement.
        self.type("\x1b[200~DELETE FROM m\nWHERE v = 9;\x1b[201~\n")
        self.wait(r"COMMIT @5 \+0 -0\ntsq> ")
        self.type("BEGIN\n")
        self.wait(r"tsq\*> ")
        self.type("\x04")
        self.wait(r"Leave\? \[y/N\] ")
        self.type("n\n")
        self.wait(r"tsq\*> ")
        self.type("ROLLBACK\n")
        self.wait("tsq> ")
        self.type("SEL\t* FROM m ORDER BY v\n")
        self.assertIn("not in this SQL: `ORDER BY`", self.wait("tsq> "))
        self.type("\\q\n")
        self.assertEqual(self.status(), 0)

    def test_settings_are_those_in_use(self) -> None:
        Names.read(self.folder).remember((), {"v": 2}, "s")
        self.open()
        self.wait("tsq> ")
        self.type("\\pset scale w=1\n")
        self.wait("times s, places 3, scale v=2 w=1, pager on, show off")

    def test_colors_and_width(self) -> None:
        programs.call(["run"], SETUP, self.folder)
        names = ", ".join(f"a_long_name_{number} BIGINT" for number in range(9))
        programs.call(["run"], f"a: CREATE TABLE w (time BIGINT NOT NULL, {names})\na: SELECT create_hypertable('w', "
                               f"'time', chunk_time_interval => 5)\n"
                      "a: INSERT INTO w (time) VALUES (1)\n".encode(), self.folder)  # fmt: skip
        cases: tuple[tuple[dict[str, str], bool], ...] = (({}, True), ({"NO_COLOR": "1"}, False))
        for environment, is_colored in cases:
            self.open(**environment)
            self.wait("tsq> ")
            self.type("SELECT * FROM w;\n")
            shown = self.wait(r"tsq> ")
            self.assertEqual("\x1b[1m" in shown, is_colored)
            plain = re.sub("\x1b\\[[0-9;?]*[a-z]", "", shown)
            self.assertTrue(all(len(line) <= 60 for line in plain.splitlines()), plain)
            self.assertIn("\\x shows whole rows", plain)
            self.close()

    def test_a_query_is_watched_until_ctrl_c(self) -> None:
        programs.call(["run"], SETUP, self.folder)
        self.open()
        self.wait("tsq> ")
        self.type("\\watch\n")
        self.wait("no query was asked yet")
        self.type("SELECT * FROM m WHERE v = 7;\n\\timing\n\\watch 0.1\n")
        for _ in range(3):
            self.wait(r"ANSWER @3 rows 1 stale 0(.|\n)*?[0-9.]+ ms")
        self.type("\x03")
        self.wait("tsq> ")

    def test_a_pager_shows_what_is_longer_than_the_terminal(self) -> None:
        values = ", ".join(f"({number}, {number})" for number in range(100))
        programs.call(["run"], SETUP + f"a: INSERT INTO m VALUES {values}\n".encode(), self.folder)
        pager = self.folder / "pager"
        pager.write_text("#!/bin/sh\ncat >paged\necho paged\n")
        pager.chmod(0o755)
        self.open(PAGER="./pager")
        self.wait("tsq> ")
        self.type("SELECT * FROM m WHERE time < 3;\n")
        self.assertNotIn("paged", self.wait("ANSWER(.|\n)*tsq> "))
        self.type("SELECT * FROM m;\n")
        self.wait("paged\n(.|\n)*tsq> ")
        self.assertEqual(len((self.folder / "paged").read_text().splitlines()), 104)
        (self.folder / "paged").unlink()
        self.type("\\q\n")
        self.status()
        status, out, _ = self.run_tsq(script=b"a: SELECT * FROM m\n", PAGER="./pager")
        self.assertEqual((status, len(out.splitlines()), (self.folder / "paged").exists()), (0, 106, False))

    def test_a_folder_that_another_process_holds(self) -> None:
        programs.call(["run"], SETUP, self.folder)
        with programs.Program(self.folder) as program:
            program.ask(b"b: SELECT * FROM m")
            self.open()
            self.assertIn(f"process {program.process.pid} holds", self.wait("tsq> "))
            self.type("SELECT * FROM m;\n")
            self.wait(r"ANSWER @3 rows 2 stale 0")
            program.ask(b"b: INSERT INTO m VALUES (5, 5)")
            self.type("SELECT * FROM m;\n")
            self.wait(r"ANSWER @4 rows 3 stale 0")
            self.type("DELETE FROM m;\n")
            self.wait("only questions are answered here")

    def test_a_copy_that_is_wanted(self) -> None:
        programs.call(["run"], SETUP, self.folder)
        self.open("prompt", "--snapshot")
        self.assertNotIn("holds", self.wait("tsq> "))
        self.type("DELETE FROM m;\n")
        self.wait("only questions are answered here")
        self.type("SELECT * FROM m;\n")
        self.wait(r"ANSWER @3 rows 2 stale 0")


class InterruptTest(AtTerminal):
    def test_a_query_is_ended_and_nothing_is_left(self) -> None:
        self.open(TSCTL=self.slow())
        self.wait("tsq> ")
        self.type("INSERT INTO COMMIT VALUES (1)\n")
        self.wait("E18 no_block")
        self.type("SELECT * FROM m\n")
        self.await_file("child")
        time.sleep(0.5)
        self.type("\x03")
        self.wait(r"the query was ended\n")
        self.wait("tsq> ")
        self.assertEqual([self.is_running(name) for name in ("program", "child")], [False, False])
        (self.folder / "child").unlink()
        self.type("INSERT INTO m VALUES (1)\n")
        self.await_file("child")
        time.sleep(0.5)
        self.type("\x03")
        self.wait("Ctrl-C again ends tsctl")
        self.type("\x03")
        self.wait(r"tsctl was ended")
        self.wait("tsq> ")
        self.type("INSERT INTO COMMIT VALUES (1)\n")
        self.wait("E18 no_block")
        self.wait("tsq> ")
        os.kill(self.process, signal.SIGTERM)
        self.assertEqual(self.status(), 143)
        self.assertFalse(self.is_running("program"))

    @unittest.skipUnless(hasattr(os, "sched_setaffinity"), "no process can be bound to a processor here")
    def test_no_signal_is_missed_between_the_prompt_and_the_wait_for_a_key(self) -> None:
        # On one processor a signal that is sent once the prompt is seen often comes before readline waits.
        processors = os.sched_getaffinity(0)
        self.addCleanup(os.sched_setaffinity, 0, processors)
        os.sched_setaffinity(0, [min(processors)])
        self.open()
        self.wait("tsq> ")
        misses = 0
        for _ in range(ROUNDS):
            os.kill(self.process, signal.SIGINT)
            try:
                self.wait("tsq> ", SECONDS_OF_MISS)
            except AssertionError:
                misses += 1
                if misses > MOST_MISSES:
                    break
                self.type("\x03")
                self.wait("tsq> ")
        self.assertEqual(misses, 0)
        os.kill(self.process, signal.SIGTERM)
        self.assertEqual(self.status(), 143)


if __name__ == "__main__":
    unittest.main()
