"""The form of all Python here: types that mypy finds no fault with, and lines of at most 120 columns."""
from __future__ import annotations

import os
import shutil
import subprocess
import unittest
from collections.abc import Iterator
from pathlib import Path

TOP = Path(__file__).resolve().parents[2]
FOLDERS = ("tools", "trials", "bench", "tests")
MOST = 120


def is_python(path: Path) -> bool:
    """Whether a file is of Python, by its name or its first line."""
    if path.suffix:
        return path.suffix == ".py"
    with open(path, "rb") as file:
        first = file.readline(100)
    return first.startswith(b"#!") and b"python" in first


def sources() -> Iterator[Path]:
    """All files of Python."""
    for folder in FOLDERS:
        yield from (path for path in sorted((TOP / folder).rglob("*")) if path.is_file() and is_python(path))


class StyleTest(unittest.TestCase):
    def test_lines_are_not_too_long(self) -> None:
        found = list(sources())
        self.assertTrue({TOP / "tools" / "tsq", TOP / "trials" / "soak", Path(__file__).resolve()} <= set(found))
        for path in found:
            lines = path.read_text(encoding="utf-8").split("\n")
            long = [number for number, line in enumerate(lines, 1) if len(line) > MOST]
            self.assertEqual(long, [], f"{path.relative_to(TOP)} has lines of over {MOST} columns")

    @unittest.skipUnless(shutil.which("mypy"), "mypy isn't here, so types aren't checked")
    def test_types(self) -> None:
        words = ["mypy", "--config-file", "mypy.ini", "--cache-dir", os.devnull]
        done = subprocess.run(words, cwd=TOP / "tools", capture_output=True, text=True)
        self.assertEqual(done.returncode, 0, done.stdout + done.stderr)


if __name__ == "__main__":
    unittest.main()
