"""What tools/build takes from the toolchain, what it keeps for the next build, and what a terminal shows."""
import os
import pty
import signal
import subprocess
import tempfile
import unittest
from collections.abc import Callable
from contextlib import suppress
from pathlib import Path
from typing import Any
from unittest import mock

from buildlib import kit, optimized
from buildlib.calls import ENDING, Progress, call, call_all, read_times

WORDS = ["--target=here", "-c", "module.bc", "-o", "module.o", "-O0", "-fsanitize=address"]


class Folder(unittest.TestCase):
    def setUp(self) -> None:
        folder = tempfile.TemporaryDirectory()
        self.addCleanup(folder.cleanup)
        self.folder = Path(folder.name)


class CompilerWords(Folder):
    def words(self, words: list[str]) -> tuple[list[str], str]:
        (self.folder / "words").write_text("\n".join(words) + "\n")
        return optimized.compiler_words(self.folder)

    def test_optimized_and_without_the_sanitizer(self) -> None:
        self.assertEqual(self.words(WORDS), (["--target=here", "-c", "module.bc", "-o", "module.o", "-O1"], "here"))
        self.assertEqual(optimized.words_for("part1", WORDS)[2:5], ["part1.bc", "-o", "part1.o"])

    def test_words_that_are_others(self) -> None:
        for left_out in ("--target=here", "module.bc", "module.o", "-O0"):
            with self.subTest(left_out), self.assertRaises(kit.NotAsNeeded):
                self.words([word for word in WORDS if word != left_out])
        with self.assertRaises(kit.NotAsNeeded):
            self.words([*WORDS, "-O0"])


class Times(Folder):
    def test_of_the_last_build(self) -> None:
        kept = self.folder / "times"
        for text, wanted in [
            ('{"read": 62, "all": 130}', {"read": 62, "all": 130}),
            ("", {}), ("[]", {}), ("3", {}), ('{"read": "soon"}', {}), ('{"read": null}', {}), ("{", {}),
        ]:
            with self.subTest(text):
                kept.write_text(text)
                self.assertEqual(read_times(kept), wanted)
        self.assertEqual(read_times(self.folder / "none"), {})

    def test_are_kept_by_step(self) -> None:
        with mock.patch("time.monotonic", side_effect=range(10, 100, 10)):
            progress = Progress(self.folder / "times")
            progress.step("read", "1 of 2, reading")
            progress.step("link", "2 of 2, linking")
            progress.keep()
        self.assertEqual(read_times(self.folder / "times"), {"read": 10, "link": 10, "all": 50})
        Progress(self.folder / "none" / "times").keep()


class Calls(Folder):
    def test_statuses(self) -> None:
        progress = Progress(self.folder / "times")
        how: dict[str, Any] = {"stdout": None, "stderr": None}
        self.assertEqual(call(["sh", "-c", "exit 3"], progress, **how), 3)
        self.assertIsNone(call(["sleep", "60"], progress, lambda _child: True, **how))
        good, bad = ["true"], ["false"]
        cases: list[tuple[list[list[str]], bool]] = [
            ([], True), ([good] * 5, True), ([good, bad, ["sleep", "60"]], False)]
        for calls, wanted in cases:
            with self.subTest(calls):
                self.assertEqual(call_all(calls, 2, progress, **how), wanted)

    def test_a_signal_while_a_call_begins_ends_it_too(self) -> None:
        begun: list["subprocess.Popen[bytes]"] = []
        begin = subprocess.Popen

        def interrupted(*words: Any, **how: Any) -> "subprocess.Popen[bytes]":
            begun.append(begin(*words, **how))
            ENDING.handle(signal.SIGTERM, None)
            return begun[-1]

        progress = Progress(self.folder / "times")
        sleeps = ["sleep", "60"]
        tried: list[Callable[[], object]] = [
            lambda: call(sleeps, progress), lambda: call_all([sleeps, sleeps], 2, progress)]
        for do in tried:
            with mock.patch("subprocess.Popen", interrupted), self.assertRaises(SystemExit) as raised:
                do()
            self.assertEqual((raised.exception.code, begun.pop().returncode, begun), (143, -signal.SIGTERM, []))


def all_shown(terminal: int) -> str:
    """All that a terminal shows, once nothing writes there any longer; it may come in pieces."""
    shown = b""
    with suppress(OSError):
        while part := os.read(terminal, 4096):
            shown += part
    os.close(terminal)
    return shown.decode()


class Terminal(Folder):
    def test_one_line_with_the_last_time(self) -> None:
        (self.folder / "times").write_text('{"read": 62}')
        other, own = pty.openpty()
        still = mock.patch("time.monotonic", return_value=7)
        with os.fdopen(own, "w") as terminal, mock.patch("sys.stderr", terminal), still:
            progress = Progress(self.folder / "times")
            progress.step("read", "1 of 3, reading the sources")
            progress.tick()
            progress.tick()
            progress.step("compile", "2 of 3, compiling")
            progress.tick()
            progress.clear()
        shown = "\r  1 of 3, reading the sources (last time 62 s): 0 s|\r  2 of 3, compiling: 0 s|\r|"
        self.assertEqual(all_shown(other).replace("\x1b[K", "|"), shown)
