"""Loads into a folder: broken off at each step, refused before anything runs, and taken up."""
import contextlib
import io
import tempfile
import unittest
from collections import Counter
from collections.abc import Callable, Iterator
from pathlib import Path
from typing import Any, NamedTuple
from unittest import mock

from tsqlib import programs
from tsqlib.content import Content
from tsqlib.journal import last_base
from tsqlib.main import main
from tsqlib.names import Names
from tsqlib.packed import Left
from tsqlib.resume import Note, Notes, content_at
from tsqlib.sending import Sender

SCHEMA = b"""a: CREATE TABLE m (v BIGINT, time BIGINT NOT NULL, device BIGINT NOT NULL)
a: SELECT create_hypertable('m', 'time', chunk_time_interval => 10)
a: CREATE TABLE plain (time BIGINT)
a: CREATE MATERIALIZED VIEW c WITH (timescaledb.continuous) AS SELECT time_bucket(10, time) AS b, count(*) FROM m \
GROUP BY b WITH NO DATA
"""
ROWS = "time,device,v\n1,a,5\n11,b,\n12,a,7\n21,b,8\n22,b,8\n22,b,8\n31,c,9\n2,a,5\n"
LOADED = Counter({(1, 5, "a"): 1, (11, None, "b"): 1, (12, 7, "a"): 1, (21, 8, "b"): 1, (22, 8, "b"): 2,
                  (31, 9, "c"): 1, (2, 5, "a"): 1})  # fmt: skip
BLOCKS = 4

# Words behind the file, its content, and what is said; nothing of it may be loaded.
REFUSED = [
    (["--table", "n", "--header"], ROWS, "has no table n; it has m, plain"),
    (["--table", "c", "--header"], ROWS, "c is an aggregate"),
    (["--table", "plain", "--header"], ROWS, "plain is no hypertable"),
    (["--table", "m", "--header"], "time,device,w\n1,1,1\n", "m has no column w"),
    (["--table", "m", "--columns", "time,v"], "1,1\n", "m takes no NULL in device"),
    (["--table", "m", "--columns", "time,device,v", "--time", "v"], "1,1,1\n", "the time column of m is time"),
    (
        ["--table", "m", "--header"],
        "time,device,v\n1,1,1\n2,,1\n3,1,x\n",
        "line 3, column 2 (device): `` is NULL in a NOT NULL",
    ),
    (["--table", "m", "--header"], "time,device,v\n1,1,1\n2,,1\n3,1,x\n", "line 4, column 3 (v): `x` is no number"),
    (
        ["--table", "m", "--columns", "time,device,v", "--header"],
        "Time,V,Device\n1,1,1\n",
        "--columns has device for column 2",
    ),
    (["--table", "m", "--columns", "time,device,v", "--header"], "1,1,1\n2,2,2\n", "holds no names"),
    (
        ["--table", "m", "--columns", "time=when,device", "--header"],
        "time,device\n1,1\n",
        "the file has no column when",
    ),
    (["--table", "m", "--columns", "time,device,v"], "1,1,\xff\n", "isn't utf-8 (--encoding)"),
    (
        ["--table", "m", "--columns", "time,device", "--scale", "v=1"],
        "1,1\n",
        "--scale v=1: --columns has no such name",
    ),
    (["--table", "m", "--columns", "time,device", "--texts", "time"], "1,1\n", "--texts time"),
    (["--table", "m", "--columns", "time,device", "--zone", "Europe/Berlin"], "1,1\n", "--times s, ms or us is needed"),
]


WORDS = ["--table", "m", "--header", "--texts", "device"]
Row = tuple[int, int | None, str | int]
GROWN, OTHER = ROWS + "51,e,1\n2,a,5\n", "time,device,v\n1,a,5\n7,a,7\n"
EDITED = ROWS.replace("11,b,", "11,b,1")


class Step(NamedTuple):
    """A load: what it says, or after which commit it is broken off."""

    content: str
    name: str = "f.csv"
    words: tuple[str, ...] = ()
    said: str = ""
    status: int = 0
    broken: int | None = None


class Case(NamedTuple):
    """Loads one after the other, and the contents that are in the table then."""

    name: str
    steps: list[Step]
    wanted: list[str]


DONE = "was loaded already"
CASES = [
    Case("one after another", [Step(ROWS), Step(OTHER, "g.csv"), Step(ROWS, said=DONE), Step(OTHER, said=DONE)],
         [ROWS, OTHER]),
    Case("another name", [Step(ROWS), Step(ROWS, "g.csv", said="was loaded already, as ")], [ROWS]),
    Case("written otherwise", [Step(ROWS), Step(ROWS.replace("\n", "\r\n\r\n"), said=DONE)], [ROWS]),
    Case("other blocks", [Step(ROWS), Step(ROWS, words=("--gap", "1"), said=DONE),
                          Step(ROWS, words=("--block", "7"), said=DONE)], [ROWS]),
    Case("grown", [Step(ROWS), Step(GROWN, said="the first 8 rows were loaded already"), Step(GROWN, said=DONE)],
         [GROWN]),
    Case("grown and renamed", [Step(ROWS), Step(GROWN, "f.csv.1", said="already, as "), Step(ROWS, said=DONE)],
         [GROWN]),
    Case("grown twice", [Step("time,device,v\n1,a,5\n"), Step(ROWS), Step(GROWN, said="the first 8 rows")], [GROWN]),
    Case("last line not whole", [Step("time,device,v\n1,a,5"), Step("time,device,v\n1,a,55\n")],
         ["time,device,v\n1,a,5\n1,a,55\n"]),
    Case("again", [Step(ROWS), Step(ROWS, words=("--again",)), Step(ROWS, said=DONE)], [ROWS, ROWS]),
    Case("again and grown", [Step(ROWS), Step(GROWN, words=("--again",)), Step(GROWN, said=DONE)], [ROWS, GROWN]),
    Case("broken off and grown", [Step(ROWS, broken=1), Step(GROWN, said="rows 10 of 10"), Step(ROWS, said=DONE)],
         [GROWN]),
    Case("grown and broken off", [Step(ROWS), Step(GROWN, broken=0), Step(GROWN, said="rows 2 of 10")], [GROWN]),
    Case("another one meanwhile", [
        Step(ROWS, broken=1), Step(OTHER, "g.csv", said="was broken off after 4 rows"), Step(ROWS, said="rows 8 of 8"),
    ], [ROWS, OTHER]),
    Case("edited", [Step(ROWS, broken=1), Step(EDITED, said="has other rows now", status=2),
                    Step(ROWS, said="rows 8 of 8")], [ROWS]),
    Case("edited, all of it", [
        Step(ROWS, broken=0), Step(EDITED, words=("--again",)), Step(ROWS, said="was given up after 2 rows", status=2),
    ], [EDITED, "time,device,v\n1,a,5\n2,a,5\n"]),
    Case("other options", [Step(ROWS, broken=1), Step(ROWS, words=("--gap", "1"), said="the same options", status=2),
                           Step(ROWS)], [ROWS]),
    Case("again, broken off", [Step(ROWS), Step(ROWS, words=("--again",), broken=2), Step(ROWS, words=("--again",))],
         [ROWS, ROWS]),
    Case("once after a break", [Step(ROWS, broken=1), Step(ROWS, words=("--once",)), Step(ROWS, said=DONE)],
         [ROWS.replace("22,b,8\n22,b,8\n", "22,b,8\n")]),
    Case("once, broken off", [Step(ROWS, words=("--once",), broken=1), Step(ROWS, said="broken off", status=2),
                              Step(ROWS, words=("--once",))], [ROWS.replace("22,b,8\n22,b,8\n", "22,b,8\n")]),
    Case("no rows", [Step("time,device,v\n"), Step("time,device,v\n", said="rows 0 of 0"), Step(ROWS)], [ROWS]),
]  # fmt: skip


def row_of(line: str) -> Row:
    """A row of a file."""
    time, device, v = line.split(",")
    return int(time), int(v) if v else None, device


def interrupt(*_: object) -> None:
    """Ctrl-C."""
    raise KeyboardInterrupt


def at_call(number: int, before: Callable[..., Any] | None, wrapped: Callable[..., Any]) -> Callable[..., Any]:
    """A function that is interrupted at one of its calls: before it, or after it."""
    calls = iter(range(1000))

    def call(*words: Any) -> Any:
        is_now = next(calls) == number
        if is_now and before is interrupt:
            interrupt()
        found = wrapped(*words)
        if is_now:
            interrupt()
        return found

    return call


class LoadTest(unittest.TestCase):
    def setUp(self) -> None:
        # Memory, if the system has it as a folder: here nothing is lost by a power cut, and syncs take their time.
        folder = tempfile.TemporaryDirectory(dir="/dev/shm" if Path("/dev/shm").is_dir() else None)
        self.addCleanup(folder.cleanup)
        self.folder = Path(folder.name)
        status, _ = programs.call(["run"], SCHEMA, self.folder)
        self.assertEqual(status, 0)
        self.said = ""
        self.again = self.journals()

    def load(self, *words: str, content: str = ROWS, name: str = "f.csv") -> int:
        """Loads a file, and keeps what is said."""
        file = self.folder / name
        file.write_bytes(content.encode("latin-1"))
        said = io.StringIO()
        with contextlib.redirect_stdout(OneOutput(said)), contextlib.redirect_stderr(said):
            status = main(["load", str(file), "--into", str(self.folder), *words])
        self.said = said.getvalue()
        return status

    def rows(self) -> Counter[Row]:
        """The rows of the table, with texts."""
        names = Names.read(self.folder)
        rows = Content(programs.journal_in(self.folder)).rows.get(0, Left())
        return Counter((time, v, names.text_of("device", device) or device) for time, v, device in rows)

    def journals(self) -> Iterator[None]:
        """The same folder, put back as it was."""
        files = {file: file.read_bytes() for file in self.folder.iterdir()}
        while True:
            for file in list(self.folder.iterdir()):
                file.unlink()
            for file, content in files.items():
                file.write_bytes(content)
            yield

    def test_broken_off_anywhere(self) -> None:
        steps: list[tuple[type, str, Any]] = [
            (Notes, "write", interrupt), (Notes, "write", None),
            (Sender, "commit", interrupt), (Sender, "commit", None),
        ]  # fmt: skip
        for owner, name, before in steps:
            for number in (0, BLOCKS - 1):
                for more in ((), ("--once",)):
                    with self.subTest(name=name, before=before is interrupt, number=number, more=more):
                        next(self.again)
                        with mock.patch.object(owner, name, at_call(number, before, getattr(owner, name))):
                            self.assertEqual(self.load(*WORDS, *more), 130)
                        self.assertEqual(self.load(*WORDS, *more), 0, self.said)
                        self.assertEqual(self.rows(), Counter(set(LOADED)) if more else LOADED)

    def test_twice(self) -> None:
        self.assertEqual(self.load(*WORDS), 0)
        self.assertIn("rows 8 of 8\ntimes 1..31\nNULL 1\nduplicates 1 loaded\nput aside 0\ncommits @5..@8", self.said)
        self.assertEqual(self.load(*WORDS), 0)
        self.assertIn("was loaded already", self.said)
        self.assertEqual(self.rows(), LOADED)
        self.assertEqual(self.load(*WORDS, "--once", content=ROWS + "41,d,1\n41,d,1\n"), 0)
        self.assertIn("rows 1 of 10", self.said)
        self.assertEqual(self.rows(), LOADED + Counter({(41, 1, "d"): 1}))
        self.assertEqual(self.load(*WORDS, "--again"), 0)
        self.assertEqual(self.rows(), LOADED + LOADED + Counter({(41, 1, "d"): 1}))

    def break_off(self, number: int, *words: str, content: str = ROWS, name: str = "f.csv") -> None:
        """Begins a load, and breaks it off after one of its commits, of which it doesn't hear."""
        with mock.patch.object(Sender, "commit", at_call(number, None, Sender.commit)):
            self.assertEqual(self.load(*WORDS, *words, content=content, name=name), 130)

    def test_begins_are_known(self) -> None:
        for case in CASES:
            with self.subTest(case=case.name):
                next(self.again)
                wanted: Counter[Row] = Counter()
                for step in case.steps:
                    if step.broken is not None:
                        self.break_off(step.broken, *step.words, content=step.content, name=step.name)
                        continue
                    self.assertEqual(self.load(*WORDS, *step.words, content=step.content, name=step.name), step.status)
                    self.assertIn(step.said, self.said)
                for content in case.wanted:
                    wanted += Counter(map(row_of, content.split()[1:]))
                self.assertEqual(self.rows(), wanted)

    def test_others_write_meanwhile(self) -> None:
        # A commit of somebody else behind a load that was broken off isn't taken for its next block.
        with mock.patch.object(Sender, "commit", at_call(1, interrupt, Sender.commit)):
            self.assertEqual(self.load(*WORDS), 130)
        programs.call(["run"], b"b: INSERT INTO m VALUES (1, 1, 1)\n", self.folder)
        self.assertEqual(self.load(*WORDS), 0)
        self.assertEqual(self.rows(), LOADED + Counter({(1, 1, "a"): 1}))

    def test_checkpoint_meanwhile(self) -> None:
        self.break_off(1)
        programs.call(["checkpoint"], b"", self.folder)
        self.assertEqual(self.load(*WORDS), 0)
        self.assertEqual(self.rows(), LOADED)

    def test_journal_begins_with_an_image(self) -> None:
        self.break_off(1)
        programs.call(["checkpoint"], b"", self.folder)
        content = programs.journal_in(self.folder)
        (self.folder / "tsctl.journal").write_bytes(content[:8] + content[last_base(memoryview(content)) :])
        self.assertEqual(self.load(*WORDS), 2)
        self.assertIn("can't be told how far", self.said)
        self.assertEqual(self.load(*WORDS, "--once"), 0)
        self.assertEqual(set(self.rows()), set(LOADED))

    def test_journal_was_put_back(self) -> None:
        journal = self.folder / "tsctl.journal"
        empty = journal.read_bytes()
        self.assertEqual(self.load(*WORDS), 0)
        # A journal that has nothing of the load, and one that has its first block.
        journal.write_bytes(empty)
        self.assertEqual(self.load(*WORDS), 0)
        self.assertEqual(self.rows(), LOADED)
        journal.write_bytes(empty)
        programs.call(["run"], b"b: INSERT INTO m VALUES (1, 1, 1)\n" * 6, self.folder)
        self.assertEqual(self.load(*WORDS), 2)
        self.assertIn("has something else there", self.said)
        self.assertEqual(self.load(*WORDS, "--again"), 0)
        self.assertEqual(self.rows(), LOADED + Counter({(1, 1, "a"): 6}))

    def test_a_copy_that_was_taken_meanwhile_continues(self) -> None:
        copies: list[tuple[int, bytes]] = []
        commit = Sender.commit

        def kept(sender: Sender, rows: list[str]) -> int:
            position = commit(sender, rows)
            copies.append((position, programs.journal_in(self.folder)))
            return position

        with mock.patch.object(Sender, "commit", kept):
            self.assertEqual(self.load(*WORDS), 0)
        whole = (self.folder / "tsctl.load").read_bytes()
        for position, journal in copies:
            with self.subTest(position=position):
                (self.folder / "tsctl.load").write_bytes(whole)
                found = content_at(self.folder, position)
                assert found
                (self.folder / "tsctl.load").write_bytes(found)
                (self.folder / "tsctl.journal").write_bytes(journal)
                self.assertEqual(self.load(*WORDS), 0, self.said)
                self.assertEqual(self.rows(), LOADED)

    def test_a_scale_that_the_folder_remembers_stays(self) -> None:
        content, words = "time,device,v\n1,1,2.50\n", ("--table", "m", "--header")
        self.assertEqual(self.load(*words, content=content), 2)
        self.assertIn("`2.50` has more digits than are kept: --scale v=1 keeps them", self.said)
        self.assertEqual(self.load(*words, "--scale", "v=1", content=content), 0, self.said)
        stays = "a scale stays, so round the values, or use another name or folder"
        self.assertEqual(self.load(*words, content="time,device,v\n2,1,2.55\n"), 2)
        self.assertIn(f"`2.55` has more digits than are kept: tsctl.names has scale 1: {stays}", self.said)
        self.assertNotIn("keeps them", self.said)
        self.assertEqual(self.load(*words, "--scale", "v=2", content="time,device,v\n2,1,2.55\n"), 2)
        self.assertIn(f"tsctl.names has scale 1 for v, not 2: {stays}", self.said)

    def test_others_load_meanwhile(self) -> None:
        ask = Sender.position

        def late(sender: Sender) -> int:
            found = ask(sender)
            notes = Notes.read(self.folder)
            notes.write(Note("other", "m", 1, "", ""))
            return found

        with mock.patch.object(Sender, "position", late):
            self.assertEqual(self.load(*WORDS), 2)
        self.assertIn("another load has gone on meanwhile", self.said)
        self.assertEqual(self.rows(), Counter())

    def test_refused(self) -> None:
        before = programs.journal_in(self.folder)
        for words, content, said in REFUSED:
            with self.subTest(words=words, said=said):
                self.assertEqual(self.load(*words, content=content), 2)
                self.assertIn(said, self.said)
                self.assertEqual(programs.journal_in(self.folder), before)
                self.assertFalse((self.folder / "tsctl.names").exists())

    def test_the_first_bad_cells_are_told(self) -> None:
        content = "time,device,v\n" + "".join(f"{time},1,x{time}\n" for time in range(300))
        self.assertEqual(self.load("--table", "m", "--header", content=content), 2)
        said = self.said.splitlines()
        self.assertEqual(said[0], "tsq: line 2, column 3 (v): `x0` is no number")
        self.assertEqual(said[9:], [
            "tsq: line 11, column 3 (v): `x9` is no number", "tsq: and 290 more", "tsq: nothing is loaded",
        ])  # fmt: skip

    def test_a_summary_shows_times_of_two_units(self) -> None:
        self.assertEqual(self.load(*WORDS, content="time,device,v\n1700000000,a,1\n1700000060000,a,1\n"), 0)
        self.assertIn("times 1700000000..1700000060000", self.said)

    def test_nothing_to_load(self) -> None:
        for content in ["", "time,device,v\n"]:
            self.assertEqual(self.load("--table", "m", "--header", "--columns", "time,device,v", content=content), 0)
            self.assertIn("rows 0 of 0", self.said)


class OneOutput(io.TextIOWrapper):
    """Standard output that goes to a text in memory."""

    def __init__(self, said: io.StringIO) -> None:
        super().__init__(io.BytesIO())
        self.said = said

    def write(self, text: str) -> int:
        return self.said.write(text)


if __name__ == "__main__":
    unittest.main()
