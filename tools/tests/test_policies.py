"""Policies by wall time, and what is measured."""
import time
import unittest
from unittest import mock

from tests import prometheus
from tests.serving import OverFolder, running
from tsqlib import policies
from tsqlib.dictionary import Dictionary
from tsqlib.messages import Trouble
from tsqlib.metrics import Metrics
from tsqlib.policies import Policies, in_words, policies_in
from tsqlib.replies import Reply
from tsqlib.views import Views

FILE = b"""-- Every minute, and once a day.
SELECT add_continuous_aggregate_policy('c', start_offset => 1000,
  end_offset => 10, schedule_interval => 60);
night: SELECT add_retention_policy('m', drop_after => 500, schedule_interval => 86400)
"""


class FilesTest(unittest.TestCase):
    def test_statements(self) -> None:
        found = policies_in(FILE, "file")
        self.assertEqual(
            [(it.statement[:45], it.number) for it in found],
            [
                ("SELECT add_continuous_aggregate_policy('c', s", 2),
                ("SELECT add_retention_policy('m', drop_after =", 4),
            ],
        )

    def test_other_statements(self) -> None:
        for text in (b"DELETE FROM m\n", b"SELECT * FROM m\n", b"a: SELECT drop_chunks('m', 7)\n"):
            with self.assertRaisesRegex(Trouble, "line 1 isn't"):
                policies_in(text, "file")

    def test_words(self) -> None:
        for text, words in (
            ("REFRESH 32 @33 snap 32 50..240", "refreshed 50..240 @33"), ("NOTHING @7", "nothing to refresh"),
            ("COMMIT @35 +0 -0", "nothing to drop"), ("COMMIT @35 +0 -7", "dropped 7 rows @35"),
        ):  # fmt: skip
            self.assertEqual(in_words(text), words)
        self.assertEqual(in_words("REFRESH 32 @33 snap 32 min..60", "s"), "refreshed min..1970-01-01 00:01:00 @33")
        self.assertRegex(in_words("FAULT E24 stopped @5"), "^E24 stopped: ")


class FormatTest(unittest.TestCase):
    """The reader of what Prometheus reads."""

    def test_what_is_right(self) -> None:
        text = "# HELP a_total A.\n# TYPE a_total counter\na_total{x=\"1\",y=\"\\\"\\n\\\\\"} 7\na_total 1e3\n"
        labels = (("x", "1"), ("y", '"\n\\'))
        self.assertEqual(prometheus.read(text), {("a_total", labels): 7.0, ("a_total", ()): 1000.0})

    def test_what_is_wrong(self) -> None:
        head = "# HELP a A.\n# TYPE a gauge\n"
        after = ("a 1", "", "b 1\n", "a 1\na 1\n", "a{x=1} 1\n", 'a{x="1",x="2"} 1\n', "a 1 2 3\n", "a x\n", "a 1\n\n")
        for text in (*(head + rest for rest in after), head + "a 1\n" + head + "a 2\n", 'a{x="\\t"} 1\n',
                     "# TYPE a gauge\na 1\n", "# HELP a A.\n# TYPE a number\na 1\n",
                     "# HELP a A.\n# TYPE a counter\na 1\n"):  # fmt: skip
            with self.subTest(text), self.assertRaises((prometheus.Wrong, ValueError)):
                prometheus.read(text)


class PoliciesTest(OverFolder):
    def tick(self, found: Policies, at: int) -> list[str]:
        with mock.patch.object(time, "time", lambda: float(at)):
            found.tick()
        return [in_words(policy.text) for policy in found.policies]

    def test_what_each_did(self) -> None:
        shared = self.sessions()
        found = Policies(shared, policies_in(FILE, "file"), "s", 60)
        with shared.turns:
            found.add()
        self.assertEqual(self.tick(found, 520), ["refreshed -480..510 @9", "nothing to drop"])
        self.assertEqual(self.tick(found, 550), ["refreshed -480..510 @9", "nothing to drop"], "neither is due")
        self.assertEqual([policy.ran for policy in found.policies], [520.0, 520.0])
        self.assertEqual(self.tick(found, 600)[0], "refreshed -400..590 @12")
        self.assertEqual([policy.ran for policy in found.policies], [600.0, 520.0])
        self.heads(shared, "w", "INSERT INTO m VALUES (640, 1, 1)")
        self.assertRegex(self.tick(found, 700)[0], r"refreshed .*\.\.690 @\d+")

    def test_intervals_of_time(self) -> None:
        shared = self.sessions()
        shared.in_numbers = Dictionary(self.folder, "s", {}).in_numbers
        text = (
            b"SELECT add_retention_policy('m', drop_after => INTERVAL '1 hour', schedule_interval => INTERVAL '2"
            b" minutes')"
        )
        found = Policies(shared, policies_in(text, "file"), "s", 60)
        with shared.turns:
            found.add()
        self.assertEqual(found.policies[0].interval, 120)
        self.assertEqual(self.tick(found, 5000), ["dropped 5 rows @8"])

    def test_they_are_added_again_to_each_program(self) -> None:
        shared = self.sessions()
        found = Policies(shared, policies_in(FILE, "file"), "s", 60)
        with shared.turns:
            found.add()
            shared.exchange(running(shared))
        self.tick(found, 520)
        self.assertEqual([policy.ran for policy in found.policies], [520.0, 520.0])
        self.assertEqual(shared.seats.held(), {}, "they are no reason to wait")

    def test_one_that_is_refused_at_the_start(self) -> None:
        shared = self.sessions()
        found = Policies(shared, policies_in(b"SELECT add_retention_policy('no', drop_after => 5)\n", "file"), "s", 60)
        with shared.turns, self.assertRaisesRegex(Trouble, "is refused: E06"):
            found.add()

    def test_one_that_is_refused_later(self) -> None:
        shared = self.sessions()
        found = Policies(shared, policies_in(b"SELECT add_retention_policy('m', drop_after => 5)\n", "file"), "s", 60)
        with shared.turns:
            found.add()
        self.assertRegex(self.tick(found, 2**63)[0], "^$", "the tick itself is refused")

    def test_parts_of_a_tick(self) -> None:
        line = Reply(
            mock.Mock(tokens=lambda: ["tick", "5"]),
            ["p: TICK 5 due 2", "p: CUT 7 1..2", "p: FAULT E19 no @7", "p: COMMIT @8 +0 -1"],
        )
        self.assertEqual(policies.parts_of(line), [["CUT 7 1..2", "FAULT E19 no @7"], ["COMMIT @8 +0 -1"]])


class MetricsTest(OverFolder):
    def test_all(self) -> None:
        shared = self.sessions()
        views = Views(shared, Dictionary(self.folder, "s", {}), 100)
        metrics = Metrics(views, None)
        self.heads(shared, "w", "REFRESH CUT 'c', 0, 40", "INSERT INTO m VALUES (1, 1, 1), (2, 1, 1)")
        found = prometheus.read(metrics.text().decode())
        of_c = (("aggregate", "c"),)
        wanted = {("tsctl_up", ()): 1, ("tsctl_position", ()): 9, ("tsctl_rows_inserted_total", ()): 7,
                  ("tsctl_stale_ranges", of_c): 2, ("tsctl_stale_seconds", of_c): 20,
                  ("tsctl_watermark_seconds", of_c): 40, ("tsctl_pending_refreshes", of_c): 1,
                  ("tsctl_dropped_seconds", of_c): 0}  # fmt: skip
        self.assertEqual({name: found.get(name) for name in wanted}, wanted)

    def test_what_was_dropped_is_not_stale(self) -> None:
        shared = self.sessions()
        metrics = Metrics(Views(shared, Dictionary(self.folder, "s", {}), 100), None)
        self.heads(shared, "w", "INSERT INTO m VALUES (1010, 1, 1)",
                   "CALL refresh_continuous_aggregate('c', NULL, NULL)", "SELECT drop_chunks('m', 1000)",
                   "INSERT INTO m VALUES (1011, 1, 1)")  # fmt: skip
        found = prometheus.read(metrics.text().decode())
        of_c = (("aggregate", "c"),)
        self.assertEqual([found[f"tsctl_{name}_seconds", of_c] for name in ("stale", "dropped")], [10, 30])
        self.assertEqual(found["tsctl_stale_ranges", of_c], 1)

    def test_policies_are_labels(self) -> None:
        shared = self.sessions()
        views = Views(shared, Dictionary(self.folder, "s", {}), 100)
        statement = 'SELECT add_retention_policy(\'m\', "\\x")'
        run_by = mock.Mock(policies=[policies.Policy(statement, 1, ran=7.5, is_refused=True)])
        found = prometheus.read(Metrics(views, run_by).text().decode())
        self.assertEqual(found["tsctl_policy_last_run_seconds", (("policy", statement),)], 7)
        self.assertEqual(found["tsctl_policy_refused", (("policy", statement),)], 1)

    def test_without_a_unit(self) -> None:
        shared = self.sessions()
        text = Metrics(Views(shared, Dictionary(self.folder, None, {}), 100), None).text().decode()
        self.assertNotIn("seconds", text)


if __name__ == "__main__":
    unittest.main()
