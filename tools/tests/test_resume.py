"""The notes of loads: kept in order, bounded in size, and never half written."""
from __future__ import annotations

import json
import tempfile
import unittest
from pathlib import Path
from unittest import mock

from tsqlib import resume
from tsqlib.messages import Trouble
from tsqlib.resume import BEGUN, FINISHED, Block, Note, Notes, content_at, is_absent

OLD = {"name": "f.csv", "input": "ab", "done": 1, "position": 3, "rows": 2, "duplicates": 0, "commits": [[3, 4]]}
# What the file has, and what is said of it.
REFUSED = [
    (b"tsctl.load 3\n", "is damaged"),
    (resume.HEADER + b"{}\n", "is damaged"),
    (resume.HEADER + b"x\n", "is damaged"),
    (resume.HEADER + b"\xff\n", "is damaged"),
    (json.dumps(OLD | {"is_finished": False}).encode(), "tsq 0.15 began and didn't end"),
    (b"{", "is damaged"),
]


def note(number: int, state: str = FINISHED) -> Note:
    """A note of an input."""
    return Note(f"{number}.csv", "m", number, f"{number:064x}", "plain 10 None", state=state)


class NotesTest(unittest.TestCase):
    def setUp(self) -> None:
        folder = tempfile.TemporaryDirectory()
        self.addCleanup(folder.cleanup)
        self.folder = Path(folder.name)
        self.file = self.folder / resume.FILE

    def read(self) -> list[Note]:
        """All notes, read again."""
        return list(Notes.read(self.folder).notes.values())

    def test_last_line_counts(self) -> None:
        notes, new = Notes.read(self.folder), note(1, BEGUN)
        notes.write(new)
        notes.write(note(2))
        new.begin(7, ["1,2", "3,null"], 0)
        notes.write(new)
        self.assertEqual(self.read(), [note(2), new])
        self.assertEqual(new.coming, Block(7, 2, 0, resume.sum_of_block("m", ["3,null", "1,2"])))
        new.take(8)
        notes.write(new)
        self.assertEqual(self.read()[-1].commits, [(8, 8)])
        self.assertEqual(len(self.file.read_bytes().splitlines()), 5)

    def test_another_process_writes_too(self) -> None:
        first, second = Notes.read(self.folder), Notes.read(self.folder)
        for number in range(4):
            (first, second)[number % 2].write(note(number))
        self.assertEqual(self.read(), [note(number) for number in range(4)])

    def test_cut_off_anywhere(self) -> None:
        notes = Notes.read(self.folder)
        notes.write(note(1))
        one = len(self.file.read_bytes())
        notes.write(note(2))
        content = self.file.read_bytes()
        for size in range(len(content)):
            self.file.write_bytes(content[:size])
            with self.subTest(size=size):
                self.assertEqual(self.read(), [note(1)] if size >= one else [])
                Notes.read(self.folder).write(note(3))
                self.assertEqual(self.read(), [note(1), note(3)] if size >= one else [note(3)])

    def test_bounded(self) -> None:
        with mock.patch.object(resume, "MOST_SIZE", 4000), mock.patch.object(resume, "MOST_KEPT", 2000):
            notes = Notes.read(self.folder)
            notes.write(note(0, BEGUN))
            for number in range(1, 100):
                notes.write(note(number))
                self.assertLessEqual(self.file.stat().st_size, 4000)
                self.assertIn(note(number), self.read())
                self.assertIn(note(0, BEGUN), self.read())
            self.assertLess(len(self.read()), 15)
            self.assertEqual([it.name for it in self.folder.iterdir()], [resume.FILE])

    def test_refused(self) -> None:
        for content, said in REFUSED:
            with self.subTest(content=content):
                self.file.write_bytes(content)
                with self.assertRaisesRegex(Trouble, said):
                    Notes.read(self.folder)

    def test_old_file(self) -> None:
        self.file.write_bytes(json.dumps(OLD | {"is_finished": True}).encode())
        notes = Notes.read(self.folder)
        self.assertEqual(notes.notes, {})
        notes.write(note(1))
        self.assertEqual(self.read(), [note(1)])

    def test_as_it_was_at_a_position(self) -> None:
        self.assertIsNone(content_at(self.folder, 7))
        notes, load = Notes.read(self.folder), note(1, BEGUN)
        notes.write(note(2))
        for position in (4, 5):
            load.begin(position, [str(position)], 0)
            notes.write(load)
            load.take(position + 1)
        load.state = FINISHED
        notes.write(load)
        content = self.file.read_bytes()
        # What is known of it: which block comes, and the commits before.
        cases: list[tuple[int, list[tuple[int | None, list[tuple[int, int]]]]]] = [
            (3, []), (4, [(4, [])]), (5, [(5, [(5, 5)])]), (6, [(None, [(5, 6)])]), (7, [(None, [(5, 6)])]),
        ]  # fmt: skip
        for position, known in cases:
            found = content_at(self.folder, position)
            assert found
            self.file.write_bytes(found)
            loads = [it for it in self.read() if it.name == load.name]
            self.file.write_bytes(content)
            told = [(it.coming.position if it.coming else None, it.commits) for it in loads]
            self.assertEqual(told, known, position)
        self.file.write_bytes(resume.HEADER + resume.line_of(load))
        self.assertEqual(content_at(self.folder, 5), self.file.read_bytes(), "a load refuses what tells more")
        for damaged in (b"{}", resume.HEADER + b"x\n"):
            self.file.write_bytes(damaged)
            self.assertEqual(content_at(self.folder, 5), damaged)

    def test_absent(self) -> None:
        found = note(1, BEGUN)
        self.assertFalse(is_absent(found, 0))
        found.begin(4, ["1"], 0)
        self.assertEqual([is_absent(found, position) for position in (4, 5)], [True, False])
        found.take(5)
        self.assertEqual([is_absent(found, position) for position in (4, 5, 6)], [True, False, False])


if __name__ == "__main__":
    unittest.main()
