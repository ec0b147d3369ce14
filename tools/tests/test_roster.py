"""What the journal of a folder tells beyond names: drops, rows, definitions."""
import random
from pathlib import Path

from tests.serving import OverFolder
from tsqlib import programs
from tsqlib.dictionary import Dictionary
from tsqlib.dropped import JournalDrops
from tsqlib.roster import Roster


class RosterTest(OverFolder):
    def run_script(self, *texts: str) -> None:
        programs.call(["run"], "".join(f"a: {text}\n" for text in texts).encode(), self.folder)

    def kept_from(self, roster: Roster, view: str = "c") -> int | None:
        roster.read()
        return roster.kept_from(view)

    def test_rows_and_drops_as_they_come(self) -> None:
        roster = Roster(self.folder)
        self.assertEqual((self.kept_from(roster), roster.inserted), (None, 5))
        self.run_script("SELECT drop_chunks('m', 0)", "DELETE FROM m WHERE time < 1001", "DELETE FROM m WHERE k < 0")
        self.assertIsNone(self.kept_from(roster), "no row was dropped")
        self.run_script("INSERT INTO m VALUES (1, 1, 1), (1998, 1, NULL)", "BEGIN",
                        "INSERT INTO m VALUES (5, 1, 1), (2500, 1, 1)",
                        "DELETE FROM m WHERE k < 0", "INSERT INTO m VALUES (-7, 1, 1)", "COMMIT")  # fmt: skip
        self.assertEqual((self.kept_from(roster), roster.inserted), (None, 10))
        self.run_script("SELECT drop_chunks('m', 2600)")
        self.assertEqual((self.kept_from(roster), self.kept_from(roster, "no")), (2000, None))
        self.run_script("SELECT drop_chunks('m', 4611686018427387903)")
        self.assertEqual(self.kept_from(roster), 2510, "the end of the last bucket with a row that was dropped")
        self.run_script(
            "INSERT INTO m VALUES (9000, 1, 1)", "DELETE FROM m", "SELECT drop_chunks('m', 4611686018427387903)"
        )
        self.assertEqual((self.kept_from(roster), self.kept_from(Roster(self.folder))), (2510, 2510))

    def test_as_the_other_reader_of_drops(self) -> None:
        """It keeps the times of all rows."""
        rng, roster = random.Random(3), Roster(self.folder)
        for _ in range(40):
            times = [rng.randrange(-2000, 9000) for _ in range(rng.randrange(1, 8))]
            rows = ", ".join(f"({time}, 1, {rng.choice(['1', 'NULL'])})" for time in times)
            self.run_script(f"INSERT INTO m VALUES {rows}")
            if rng.random() < 0.4:
                self.run_script(
                    rng.choice(
                        [
                            f"SELECT drop_chunks('m', {rng.randrange(-1000, 8000)})",
                            "DELETE FROM m",
                            "DELETE FROM m WHERE v = 1",
                        ]
                    )
                )
            self.assertEqual(self.kept_from(roster), JournalDrops(self.folder).kept_from("c"))

    def test_a_journal_that_is_another_one(self) -> None:
        roster = Roster(self.folder)
        self.run_script("SELECT drop_chunks('m', 2500)")
        self.assertEqual(self.kept_from(roster), 40)
        journal = Path(self.folder, "tsctl.journal")
        journal.unlink()
        self.assertEqual(self.kept_from(roster), 40, "what was known, as long as there is none")
        self.run_script("CREATE TABLE t (time BIGINT)")
        self.assertIsNone(self.kept_from(roster))
        self.assertEqual([table.name for table in roster.history.tables], ["t"])

    def test_an_image(self) -> None:
        roster = Roster(self.folder)
        self.run_script("SELECT drop_chunks('m', 2500)")
        programs.call(["checkpoint"], b"", self.folder)
        self.run_script("INSERT INTO m VALUES (3000, 1, 1)", "SELECT drop_chunks('m', 4500)")
        for found in (roster, Roster(self.folder)):
            self.assertEqual(self.kept_from(found), 3010)
            view = found.view("c")
            self.assertEqual(view and view.width, 10)

    def test_names_that_come_later(self) -> None:
        found = Dictionary(self.folder, None, {})
        self.assertIsNone(found.unit())
        Path(self.folder, "tsctl.names").write_text("tsctl.names 1\ntimes ms\nscale v 2\n")
        found.update()
        self.assertEqual((found.unit(), found.names.scales), ("ms", {"v": 2}))
        Path(self.folder, "tsctl.names").write_text("damaged\n")
        found.update()
        self.assertEqual(found.unit(), "ms", "what was known")
