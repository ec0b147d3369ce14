"""A disk that is full while clients write: what they get, what the state says, and what is there afterwards."""
import json
import re
import signal
import tempfile
import threading
import time
import unittest
from typing import Any

from tests.serving import NEEDS, SETUP, Program
from tests.small_disk import make_room, namespace, within

VALUES = ", ".join(f"({at}, 1, 1)" for at in range(100, 600))
CLIENTS = 4
Told = list[tuple[int, str]]


@NEEDS
@unittest.skipUnless(namespace(), "no mount namespace may be made here, so no disk is full")
class FullDiskTest(unittest.TestCase):
    def setUp(self) -> None:
        folder = tempfile.TemporaryDirectory()
        self.addCleanup(folder.cleanup)
        self.program = Program(folder.name, by=within(folder.name))
        self.addCleanup(self.program.process.communicate)
        self.addCleanup(self.program.process.kill)
        self.folder = folder.name
        setup = "\n".join(line.removeprefix("a: ") for line in SETUP.split("\n"))
        self.assertEqual(self.program.ask("POST", "/sql", setup)[0], 200)

    def write(self, number: int, told: Told) -> None:
        """Inserts until nothing is taken any longer."""
        while not told or told[-1][0] == 200:
            told.append(self.program.ask("POST", f"/sql?session=w{number}", f"INSERT INTO m VALUES {VALUES}"))

    def fill(self) -> Told:
        """The answers that some clients got, with those that weren't followed."""
        told: list[Told] = [[] for _ in range(CLIENTS)]
        writers = [threading.Thread(target=self.write, args=(number, told[number])) for number in range(CLIENTS)]
        for writer in writers:
            writer.start()
        for writer in writers:
            writer.join()
        return [answer for answers in told for answer in answers]

    def state(self) -> Any:
        return json.loads(self.program.ask("GET", "/state")[1])

    def reason(self) -> str:
        """What the state has of `tsctl why`, once it is known."""
        end = time.monotonic() + 90
        while not (found := str(self.state()["why"])) and time.monotonic() < end:
            time.sleep(0.1)
        return found

    def test_nothing_acknowledged_is_lost(self) -> None:
        told = self.fill()
        taken = [re.search(r"COMMIT @(\d+) \+500", text) for status, text in told if status == 200]
        self.assertNotIn(None, taken)
        commits = sorted(int(found[1]) for found in taken if found)
        refused = sorted(status for status, _ in told if status != 200)
        self.assertEqual(refused, [502] + [503] * (CLIENTS - 1), "one has perhaps taken effect, no other was put in")
        self.assertEqual(commits, list(range(8, 8 + len(commits))))
        state = self.state()
        ended = [state[name] for name in ("running", "status", "ending", "position")]
        self.assertEqual(ended, [False, 5, "disk fault", commits[-1]])
        wrong = r"WRONG: the disk didn't take \d+ bytes: .*: No space left on device"
        self.assertRegex(self.reason(), wrong + "\n  do: free space")
        self.assertEqual(self.program.ask("GET", "/aggregates/c")[0], 503)

        make_room(self.program.process.pid, self.folder)
        self.assertEqual(self.program.ask("POST", "/start", "")[0], 200)
        position = self.state()["position"]
        self.assertIn(position - commits[-1], (0, 1), "all that was acknowledged, and perhaps the next statement")
        rows = 5 + 500 * (len(commits) + position - commits[-1])
        counted = "SELECT time_bucket(1000000, time), count(*) AS n FROM m GROUP BY 1"
        (reply,) = json.loads(self.program.ask("POST", "/sql", counted)[1])
        self.assertEqual(reply["rows"][0]["n"], rows)
        said = self.program.ask("POST", "/sql", f"INSERT INTO m VALUES {VALUES}")[1]
        self.assertIn(f"COMMIT @{position + 1} +500 -0", said)
        status, _, said = self.program.end(signal.SIGTERM)
        self.assertEqual((status, said), (0, f"tsctl: disk fault\ntsq: ended at position {position + 1}\n"))

    def test_a_server_that_is_ended_says_why_it_failed(self) -> None:
        self.fill()
        # On a busy machine `tsctl why` takes its time.
        status, _, said = self.program.end(signal.SIGTERM, 120)
        self.assertEqual(status, 5)
        self.assertIn("tsctl has ended with status 5: disk fault", said)
        self.assertIn("No space left on device", said)


if __name__ == "__main__":
    unittest.main()
