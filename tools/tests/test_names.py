"""The dictionary of a folder: what it keeps, what it refuses, and two writers at once."""
import multiprocessing
import tempfile
import unittest
from pathlib import Path

from tsqlib.messages import Trouble
from tsqlib.names import FILE, HEADER, Names, Unit

WHOLE = HEADER + b'times s\nscale celsius 2\ntext device 1 "pump-a"\ntext device -7 "a \\"b\\"\\nc"\n'

# A file, and the line that is damaged.
DAMAGED = [
    (b"tsctl.names 2\n", 1),
    (HEADER + b"times h\n", 2),
    (HEADER + b"times s\ntimes s\n", 3),
    (HEADER + b"scale celsius 31\n", 2),
    (HEADER + b"scale Celsius 1\n", 2),
    (HEADER + b"scale v 1\nscale v 2\n", 3),
    (HEADER + b'text v 1 "a"\ntext v 1 "b"\n', 3),
    (HEADER + b'text v 1 "a"\ntext v 2 "a"\n', 3),
    (HEADER + b"text v 1 'a'\n", 2),
    (HEADER + b'text v 9223372036854775808 "a"\n', 2),
    (HEADER + b'text v 1 "a" \n', 2),
    (HEADER + b'text v 1 "a\n', 2),
    (HEADER + b'text v 1 "a"b"\n', 2),
    (HEADER + b'text v 1 "\xff"\n', 2),
    (HEADER + b"\n", 2),
    (b"\0\0\0\n", 1),
]


def remember_many(folder: str, process: int) -> None:
    """Remembers texts of which some are those of other processes."""
    names = Names.read(Path(folder))
    for number in range(20):
        names.remember([("v", f"shared {number}"), ("v", f"{process} {number}")])


class NamesTest(unittest.TestCase):
    def setUp(self) -> None:
        folder = tempfile.TemporaryDirectory()
        self.addCleanup(folder.cleanup)
        self.folder = Path(folder.name)
        self.file = self.folder / FILE

    def test_no_file(self) -> None:
        names = Names.read(self.folder)
        self.assertEqual((names.times, names.scale_of("v"), names.has_texts("v")), (None, 0, False))
        names.remember()
        self.assertFalse(self.file.exists() and self.file.stat().st_size)

    def test_reads(self) -> None:
        self.file.write_bytes(WHOLE)
        names = Names.read(self.folder)
        self.assertEqual((names.times, names.scale_of("celsius"), names.scale_of("device")), ("s", 2, 0))
        self.assertEqual(names.text_of("device", -7), 'a "b"\nc')
        self.assertEqual(names.number_of("device", " pump-a "), 1)
        self.assertEqual((names.has_texts("device"), names.has_texts("celsius")), (True, False))
        self.assertIsNone(names.text_of("device", 2))

    def test_remembers(self) -> None:
        names = Names.read(self.folder)
        texts = ["pump-a", "", "a\nb\r\x85\u2028", "größe", "pump-a", " pump-a", "\\N", '"']
        names.remember([("device", text) for text in texts], {"v": 3}, "ms")
        names.remember([("device", "new"), ("place", "new")], {"v": 3}, "ms")
        again = Names.read(self.folder)
        self.assertEqual([again.number_of("device", text) for text in texts], [1, 2, 3, 4, 1, 5, 6, 7])
        self.assertEqual((again.number_of("device", "new"), again.number_of("place", "new")), (8, 1))
        self.assertEqual((again.times, again.scales), ("ms", {"v": 3}))
        self.assertEqual(self.file.read_bytes().count(b"\n"), 1 + 2 + 7 + 2)

    def test_contradictions(self) -> None:
        self.file.write_bytes(WHOLE)
        names = Names.read(self.folder)
        cases: list[tuple[dict[str, int], Unit | None]] = [
            ({"celsius": 1}, None),
            ({"celsius": 2, "v": 1}, "ms"),
            ({}, "us"),
        ]
        for scales, times in cases:
            with self.subTest(scales=scales, times=times), self.assertRaises(Trouble):
                names.remember([("device", "new")], scales, times)
        self.assertEqual(self.file.read_bytes(), WHOLE)

    def test_damaged(self) -> None:
        for content, line in DAMAGED:
            with self.subTest(content=content):
                self.file.write_bytes(content)
                with self.assertRaisesRegex(Trouble, f"line {line} is damaged"):
                    Names.read(self.folder)

    def test_cut_off_at_any_byte(self) -> None:
        for size in range(len(WHOLE)):
            with self.subTest(size=size):
                self.file.write_bytes(WHOLE[:size])
                names = Names.read(self.folder)
                names.remember([("device", "pump-a"), ("device", "new")])
                again = Names.read(self.folder)
                self.assertEqual(again.number_of("device", "pump-a"), 1)
                self.assertIsNotNone(again.number_of("device", "new"))

    def test_writers_at_once(self) -> None:
        processes = [multiprocessing.Process(target=remember_many, args=(str(self.folder), n)) for n in range(4)]
        for process in processes:
            process.start()
        for process in processes:
            process.join(60)
            self.assertEqual(process.exitcode, 0)
        names = Names.read(self.folder)
        self.assertEqual(sorted(names.texts_of("v")), list(range(1, 101)))


if __name__ == "__main__":
    unittest.main()
