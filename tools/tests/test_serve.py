"""`tsq serve` as a program: its beginning, its input, and each ending."""
import json
import os
import shutil
import signal
import subprocess
import sys
import tempfile
import time
from pathlib import Path
from typing import Any
from unittest import main, skipUnless

from tests.serving import TSQ, OverFolder, Program, Writer, await_that, stream
from tsqlib import programs

UNIT = TSQ.parents[1] / "examples" / "tsq-serve.service"


class ProgramTest(OverFolder):
    def serve(self, *words: str, **how: Any) -> Program:
        program = Program(self.folder, *words, **how)
        self.addCleanup(program.process.communicate)
        self.addCleanup(program.process.kill)
        return program

    def check(self) -> str:
        return programs.call(["check"], b"", self.folder)[1].decode()

    def state(self, program: Program) -> Any:
        return json.loads(program.ask("GET", "/state")[1])

    def test_signals_end_it_and_nothing_is_lost(self) -> None:
        for number in (signal.SIGINT, signal.SIGTERM):
            program = self.serve()
            program.ask("POST", "/sql?session=a", "INSERT INTO m VALUES (1, 1, 1)")
            told = self.state(program)["position"]
            status, _, said = program.end(number)
            self.assertEqual(status, 0)
            self.assertIn(f"ended at position {told}", said)
            self.assertEqual(self.check(), f"HISTORY @{told}\n")

    def test_lines_of_standard_input(self) -> None:
        program = self.serve(stdin=subprocess.PIPE)
        lines = ["feed: INSERT INTO m VALUES (1, 1, 1)", "", "-- A comment.", "  b:  SELECT * FROM m WHERE time = 1 ;",
                 "nobody", "feed: COMMIT", "b: \u00e9",
                 "b: SELECT * FROM c WHERE b = 20", "a: SELECT * FROM m LIMIT 1", "a: " + "x" * 200000,
                 "a: ROLLBACK"]  # fmt: skip
        given, shown = stream(program.process.stdin), stream(program.process.stdout)
        given.write("\n".join(lines))
        given.close()
        program.process.stdin = None
        printed = [shown.readline().rstrip("\n") for _ in range(12)]
        self.assertEqual(printed, [
            "feed: COMMIT @8 +1 -0", "b: ANSWER @8 rows 1 stale 0", "1|1|1", "line 5: FAULT E03 no_session",
            "feed: FAULT E18 no_block", "line 7: FAULT E02 not_ascii",
            "b: ANSWER @8 rows 2 stale 1", "20|1|7/1|1", "20|2|8/1|1", "stale 20..30", "a: FAULT E05 syntax at 20",
            "line 10: FAULT E01 line_long"])  # fmt: skip
        self.assertEqual(shown.readline(), "a: FAULT E18 no_block\n")
        self.assertEqual(program.end(signal.SIGTERM)[0], 0)

    def test_read_only_takes_no_input(self) -> None:
        with open(os.path.join(self.folder, "lines"), "w+") as lines:
            lines.write("a: DELETE FROM m\n")
            lines.seek(0)
            program = self.serve("--read-only", stdin=lines)
            self.assertNotIn("token", program.said)
            time.sleep(0.3)
            self.assertEqual(self.state(program)["position"], 7)

    def test_a_folder_that_another_run_holds(self) -> None:
        first = self.serve()
        second = subprocess.run(
            [*first.call[:3], "--in", self.folder, "--port", "0"],
            capture_output=True,
            stdin=subprocess.DEVNULL,
            text=True,
        )
        self.assertEqual(second.returncode, 2)
        self.assertRegex(second.stderr, r"tsq: process \d+ holds .*: `tsq serve --follow` reads beside it\n")

    def test_a_port_that_is_taken(self) -> None:
        first = self.serve()
        with tempfile.TemporaryDirectory() as other:
            second = subprocess.run(
                [*first.call[:3], "--in", other, "--port", str(first.port)],
                capture_output=True,
                stdin=subprocess.DEVNULL,
                text=True,
            )
        self.assertEqual(second.returncode, 2)
        self.assertIn(f"port {first.port}: Address already in use", second.stderr)

    def test_beside_another_process(self) -> None:
        writer = Writer(self.folder)
        writer.say("ROLLBACK")
        program = self.serve("--follow")
        for number in range(3):
            told = int(writer.say(f"INSERT INTO m VALUES ({40 + number}, 1, 1)").split("@")[1].split()[0])
            await_that(lambda: bool(self.state(program)["position"] == told))
            state = self.state(program)
            self.assertEqual((state["position"], state["running"], state["trouble"]), (told, True, ""))
            rows = json.loads(program.ask("GET", "/aggregates/c")[1])
            self.assertEqual(rows["position"], told)
        self.assertEqual(program.ask("POST", "/sql", "DELETE FROM m")[0], 403)
        self.assertEqual(program.ask("POST", "/sql", "SELECT * FROM m WHERE time = 42")[0], 200)
        self.assertIn("tsctl_rows_inserted_total 8\n", program.ask("GET", "/metrics")[1])
        journal = Path(self.folder, "tsctl.journal")
        journal.rename(journal.with_suffix(".away"))
        await_that(lambda: bool(self.state(program)["trouble"]))
        self.assertIn("has no journal", self.state(program)["trouble"])
        self.assertEqual(
            json.loads(program.ask("GET", "/aggregates/c")[1])["position"], told, "what was known is still answered"
        )
        journal.with_suffix(".away").rename(journal)
        self.assertEqual(writer.end(), 1)
        status, _, said = program.end(signal.SIGTERM)
        self.assertEqual((status, said), (0, f"tsq: ended at position {told}\n"))

    def test_policies(self) -> None:
        Path(self.folder, "policies").write_text(
            "SELECT add_retention_policy('m', drop_after => 100,\n  schedule_interval => 1);\n"
        )
        words = ["--policies", f"{self.folder}/policies"]
        program = self.serve(*words, "--times", "s", "--tick", "0.2")
        await_that(lambda: str(self.state(program)["policies"]["list"][0]["did"]).startswith("nothing"))
        (policy,) = self.state(program)["policies"]["list"]
        self.assertEqual((policy["did"], policy["is_refused"]), ("nothing to drop", False))
        self.assertIn("tsctl_policy_last_run_seconds{policy=", program.ask("GET", "/metrics")[1])
        self.assertEqual(program.end(signal.SIGTERM)[0], 0)
        for more in ((), ("--times", "s", "--read-only"), ("--times", "s", "--follow")):
            self.assertEqual(self.refused(*words, *more)[0], 2, more)
        Path(self.folder, "policies").write_text("DELETE FROM m\n")
        self.assertIn("line 1 isn't SELECT", self.refused(*words, "--times", "s")[1])
        Path(self.folder, "policies").write_text("SELECT add_retention_policy('no', drop_after => 1)\n")
        self.assertIn("is refused: E06", self.refused(*words, "--times", "s")[1])

    def refused(self, *words: str) -> tuple[int, str]:
        """The status and the words with which it ends at once."""
        call = [sys.executable, str(TSQ), "serve", "--in", self.folder, "--port", "0", *words]
        ended = subprocess.run(call, capture_output=True, stdin=subprocess.DEVNULL, text=True, timeout=60)
        return ended.returncode, ended.stderr

    def test_the_token_of_a_file(self) -> None:
        name = Path(self.folder, "token")
        program = self.serve("--token-file", str(name), "--private")
        self.assertNotIn("token", program.said)
        self.assertEqual(name.stat().st_mode & 0o777, 0o600)
        self.assertEqual(program.ask("GET", "/state")[0], 401)
        self.assertEqual(program.ask("GET", "/state", token=name.read_text().strip())[0], 200)
        program.end(signal.SIGTERM)
        again = self.serve("--token-file", str(name))
        self.assertEqual(again.ask("POST", "/start", "", token=name.read_text().strip())[0], 200)
        again.end(signal.SIGTERM)
        name.chmod(0o644)
        self.assertIn("can be read by others", self.refused("--token-file", str(name))[1])
        name.chmod(0o600)
        name.write_text("short")
        self.assertIn("has no token", self.refused("--token-file", str(name))[1])

    def test_a_block_that_nobody_uses(self) -> None:
        program = self.serve("--idle", "0.2")
        before = self.state(program)["statements"]
        self.assertEqual(program.ask("POST", "/sql?session=a", "BEGIN\nINSERT INTO m VALUES (1, 1, 1)")[0], 200)
        self.assertTrue(await_that(lambda: bool(self.state(program)["statements"] == before + 3)), "it is rolled back")
        self.assertEqual(program.ask("POST", "/sql?session=a", "COMMIT")[0], 409)
        self.assertEqual(program.end(signal.SIGTERM)[2], "tsq: ended at position 7\n")

    def test_the_unit_of_systemd(self) -> None:
        (line,) = [line for line in UNIT.read_text().split("\n") if line.startswith("ExecStart=")]
        words = (
            line.split("/opt/tsctl/tools/tsq serve ")[1]
            .replace("/var/lib/tsctl", self.folder)
            .replace("8086", "0")
            .split()
        )
        program = self.serve(*words)
        self.assertEqual(program.said, f"tsq: http://127.0.0.1:{program.port}/\n")
        self.assertEqual(program.end(signal.SIGTERM), (0, "", "tsq: ended at position 7\n"))

    @skipUnless(shutil.which("systemd-analyze"), "no systemd-analyze is here, which would read the unit")
    def test_systemd_reads_the_unit(self) -> None:
        text = UNIT.read_text().replace("/opt/tsctl", str(TSQ.parents[1])).replace("/var/lib/tsctl", self.folder)
        misspelled = text.replace("Restart=no", "Restrat=no")
        for name, changed, said in (("tsq-serve", text, ""), ("other", misspelled, "Unknown key 'Restrat'")):
            path = Path(self.folder, f"{name}.service")
            path.write_text(changed)
            ended = subprocess.run(
                ["systemd-analyze", "verify", path],
                capture_output=True,
                stdin=subprocess.DEVNULL,
                text=True,
                timeout=60,
            )
            self.assertEqual(ended.returncode, 0, ended.stderr)
            self.assertIn(said, ended.stderr)
            self.assertEqual(ended.stderr == "", said == "", ended.stderr)

    def test_killed_itself(self) -> None:
        program = self.serve()
        program.ask("POST", "/sql?session=a", "INSERT INTO m VALUES (1, 1, 1)")
        program.process.kill()
        program.process.wait()
        replies = []

        def has_run() -> bool:
            status, output = programs.call(["run"], b"a: INSERT INTO m VALUES (2, 1, 1)\n", self.folder)
            replies.append(output)
            return status == 0

        self.assertTrue(await_that(has_run), "the journal is free again")
        self.assertEqual(replies[-1], b"a: COMMIT @9 +1 -0\n")

    def test_ends_while_a_statement_runs_and_others_wait(self) -> None:
        program = self.serve()
        values = ", ".join(f"({time}, 1, 1)" for time in range(1000))
        body = "\n".join([f"INSERT INTO m VALUES {values}"] * 20)
        asking = [subprocess.Popen(["curl", "-s", "-H", "Authorization: Bearer secret", "--data-binary", "@-",
                                    f"http://127.0.0.1:{program.port}/sql?session=s{number}"],
                                   stdin=subprocess.PIPE, stdout=subprocess.PIPE,
                                   text=True) for number in range(4)]  # fmt: skip
        for it in asking:
            stream(it.stdin).write(body)
            stream(it.stdin).close()
            it.stdin = None
        time.sleep(0.5)
        status, _, said = program.end(signal.SIGTERM)
        told = [it.communicate()[0] for it in asking]
        self.assertEqual(status, 0)
        acknowledged = sum(text.count("COMMIT @") for text in told)
        self.assertEqual(self.check(), f"HISTORY @{7 + acknowledged}\n", said)


if __name__ == "__main__":
    main()
