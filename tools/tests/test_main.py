"""The words of the command line."""
from __future__ import annotations

import contextlib
import io
import subprocess
import sys
import tempfile
import unittest
from argparse import Namespace
from pathlib import Path
from unittest import mock

from tsqlib.main import main, options_of, with_command
from tsqlib.messages import Trouble
from tsqlib.options import journal_of
from tsqlib.signals import Stop
from tsqlib.version import version

TOOLS = Path(__file__).resolve().parents[1]
COMMANDS = ("run", "prompt", "load", "help")


class CommandTest(unittest.TestCase):
    def test_which_command_is_meant(self) -> None:
        with tempfile.NamedTemporaryFile() as script:
            cases: tuple[tuple[list[str], list[str]], ...] = (
                ([], ["run"]),
                (["--csv"], ["run", "--csv"]),
                (["--in", "F"], ["run", "--in", "F"]),
                (["--in", "F", "load", "x"], ["load", "--in", "F", "x"]),
                (["--in=F", "load", "x"], ["load", "--in=F", "x"]),
                (["--in"], ["run", "--in"]),
                (["prompt", "--csv"], ["prompt", "--csv"]),
                (["--help"], ["--help"]),
                (["--version"], ["--version"]),
                ([script.name, "--csv"], ["run", script.name, "--csv"]),
                (["--in", "F", script.name], ["run", "--in", "F", script.name]),
            )
            for words, wanted in cases:
                self.assertEqual(with_command(words, COMMANDS), wanted, words)

    def test_a_word_that_is_no_command_is_told(self) -> None:
        for word, told in (("rnu", "did you mean run?"), ("lod", "did you mean load?"), ("xyzzy", "no file")):
            with self.assertRaisesRegex(Trouble, told.replace("?", r"\?")):
                with_command([word, "x"], COMMANDS)

    def test_control_characters_are_refused(self) -> None:
        for words in (
            ["plot", "c", "--where", "b > 0\nplot: DELETE FROM m"],
            ["plot", "c", "--out", "x'\nsystem"],
            ["run", "\x1b[2J"],
        ):
            with self.assertRaisesRegex(Trouble, "control character"):
                options_of(words)
        self.assertEqual(
            options_of(["load", "x", "--table", "m", "--columns", "time", "--delimiter", "\t"]).delimiter, "\t"
        )

    def test_options_are_written_in_full(self) -> None:
        with contextlib.redirect_stderr(io.StringIO()), self.assertRaises(SystemExit):
            options_of(["run", "--frac"])

    def test_a_command_reads_its_own_module_and_its_usage_has_all(self) -> None:
        code = (
            "import sys; from tsqlib.main import main; status = main(sys.argv[1:]);"
            " print(status, 'tsqlib.log' in sys.modules, 'tsqlib.serve' in sys.modules)"
        )
        with tempfile.TemporaryDirectory() as folder:
            (Path(folder) / "tsctl.journal").touch()
            words = [sys.executable, "-c", code, "log", "--in", folder]
            done = subprocess.run(words, capture_output=True, text=True, cwd=TOOLS)
        self.assertEqual(done.stdout, "0 True False\n", done.stderr)
        with contextlib.redirect_stderr(io.StringIO()) as said, self.assertRaises(SystemExit):
            options_of(["log", "--nosuch"])
        self.assertIn("run,prompt,load,import,plot", said.getvalue())

    def test_a_journal_is_a_file_or_that_of_a_folder(self) -> None:
        for folder, journal, wanted in (
            (None, None, "tsctl.journal"),
            ("F", None, "F/tsctl.journal"),
            ("F", "x", "F/x"),
            (None, "x/y", "x/y"),
            ("F", "/x", "/x"),
        ):
            self.assertEqual(journal_of(Namespace(folder=folder, journal=journal)), wanted)


class EndingTest(unittest.TestCase):
    def status_of(self, *words: str) -> tuple[int, str]:
        said = io.StringIO()
        with contextlib.redirect_stderr(said), contextlib.redirect_stdout(io.TextIOWrapper(io.BytesIO())):
            return main(list(words)), said.getvalue()

    def test_what_ends_it_is_told(self) -> None:
        for error, status, told in (
            (Trouble("so it is"), 2, "tsq: so it is\n"),
            (Trouble("tsq: so a part has said"), 2, "tsq: so a part has said\n"),
            (Stop(15), 143, ""),
            (KeyboardInterrupt(), 130, ""),
            (MemoryError(), 7, "tsq: out of memory\n"),
            (OSError(2, "No such file", "x.csv"), 2, "tsq: x.csv: No such file\n"),
        ):
            with mock.patch("tsqlib.log.follow", side_effect=error), tempfile.TemporaryDirectory() as folder:
                (Path(folder) / "tsctl.journal").touch()
                self.assertEqual(self.status_of("log", "--in", folder), (status, told))

    def test_version_is_that_of_the_changes(self) -> None:
        self.assertRegex(version(), r"^\d+\.\d+")


if __name__ == "__main__":
    unittest.main()
