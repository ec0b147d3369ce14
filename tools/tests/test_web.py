"""The HTTP server: who may ask, how much, and what each path answers."""
import collections
import csv
import io
import json
import socket
import threading
import time
from collections.abc import Iterable
from pathlib import Path
from typing import Any
from unittest import main, mock

from tests.serving import OverServer, await_that, running
from tsqlib import deadlines, views, web
from tsqlib.access import Access
from tsqlib.replies import Reply
from tsqlib.samples import FirstRows


class GuardsTest(OverServer):
    def test_foreign_hosts_and_pages(self) -> None:
        for headers in ({"Host": "evil.example"}, {"Host": "127.0.0.1.evil.example"}, {"Host": ""},
                        {"Origin": "http://evil.example"},
                        {"Origin": "null"}, {"Origin": f"http://localhost:{self.port}"},
                        {"Sec_Fetch_Site": "cross-site"},
                        {"Sec_Fetch_Site": "same-site"}):  # fmt: skip
            with self.subTest(headers):
                self.assertEqual(self.ask("GET", "/state", **headers)[0], 403)
        for headers in (
            {"Host": "localhost:1"},
            {"Host": "[::1]:80"},
            {"Origin": f"http://127.0.0.1:{self.port}"},
            {"Sec_Fetch_Site": "same-origin"},
        ):
            with self.subTest(headers):
                self.assertEqual(self.ask("GET", "/state", **headers)[0], 200)

    def test_what_writes_needs_the_token(self) -> None:
        for text in ("DELETE FROM m", "BEGIN", "SELECT drop_chunks('m', 7)",
                     "CALL refresh_continuous_aggregate('c', 0, 10)", "COMMIT\nDELETE FROM m",
                     "SELECT * FROM m\nINSERT INTO m VALUES (1, 1, 1)", "TICK 7", "begin read",
                     "SELECT create_hypertable('m', 'v', chunk_time_interval => 7)",
                     "SELECT add_retention_policy('m', drop_after => 7)", "REFRESH SNAP 5",
                     "ALTER MATERIALIZED VIEW c SET (timescaledb.materialized_only = true)"):  # fmt: skip
            with self.subTest(text):
                self.assertEqual(self.sql(text, token=None)[0], 401)
                self.assertEqual(self.sql(text, token="other")[0], 401)
        self.assertEqual(self.ask("POST", "/start", "")[0], 401)
        self.assertEqual(self.shared.position, 7)

    def test_questions_need_none(self) -> None:
        status, replies = self.sql(
            (
                "begin Read only;\n\n-- A comment.\nSELECT  * FROM c\nselect time_bucket(10, time), count(*) FROM m"
                " GROUP BY 1\nCOMMIT"
            ),
            token=None,
        )
        self.assertEqual((status, [it["line"] for it in replies]), (200, [1, 4, 5, 6]))
        self.assertEqual(
            [it["reply"][0] for it in replies],
            ["op: BEGIN @7", "op: ANSWER @7 rows 4 stale 1", "op: ANSWER @7 rows 3 stale 0", "op: END"],
        )

    def test_a_reader_is_in_nobodys_block(self) -> None:
        self.sql("BEGIN\nINSERT INTO m VALUES (99, 9, 9)", "w")
        self.assertEqual(self.sql("SELECT * FROM m WHERE time = 99", "w", token=None)[1][0]["rows"], [])
        self.assertEqual(self.sql("COMMIT", "w", token=None)[1][0]["reply"], ["w: FAULT E18 no_block"])
        self.assertEqual(self.sql("COMMIT", "w")[1][0]["reply"], ["w: COMMIT @8 +1 -0"])

    def test_the_session_may_be_written_in_front(self) -> None:
        self.assertEqual(
            self.sql("  w:COMMIT\nw: BEGIN\nROLLBACK\nx: COMMIT\nw: w: COMMIT", "w")[1][0]["reply"],
            ["w: FAULT E18 no_block"],
        )
        replies = self.sql("w: SELECT * FROM m LIMIT 1\nx: COMMIT\nw: w: COMMIT", "w")[1]
        self.assertEqual(
            [it["reply"][0] for it in replies],
            ["w: FAULT E05 syntax at 20", "w: FAULT E05 syntax at 4", "w: FAULT E05 syntax at 4"],
        )

    def test_bodies(self) -> None:
        self.assertEqual(self.sql("x" * (web.MOST_BODY + 1))[0], 413)
        self.assertEqual(self.sql("COMMIT\n" * web.MOST_LINES)[0], 413)
        for name in ("no+name", "a:b", "a%3Ab", "a%0Ab", "a%0D%0Ab", "a%00", "w:%20COMMIT%0Ac1", "1a", "A", "_",
                     "a" * 17, "%C3%A9"):  # fmt: skip
            status, told = self.sql("COMMIT", name)
            self.assertEqual((status, told["error"].split(":")[0]), (400, "session"), name)
        self.assertEqual(self.ask("GET", "/state", "body")[0], 400)
        self.assertEqual(self.ask("POST", "/sql", iter([b"COMMIT"]), Authorization="Bearer secret")[0], 411)
        self.assertEqual(self.sql("SELECT * FROM " + "m" * 70000)[1][0]["reply"], ["line 1: FAULT E01 line_long"])
        self.assertEqual(self.ask("GET", "/nothing")[0], 404)
        self.assertEqual(self.ask("GET", "/../serve.py")[0], 404)
        self.assertEqual(self.ask("PUT", "/sql", "x")[0], 501)

    def test_page_takes_no_foreign_parts(self) -> None:
        status, text = self.ask("GET", "/")
        self.assertEqual(status, 200)
        for name in web.FILES:
            status, text = self.ask("GET", name)
            self.assertEqual(status, 200)
            text = text.replace("http://www.w3.org/2000/svg", "")
            self.assertNotIn("//cdn", text)
            self.assertNotRegex(text, r"(src|href|url|fetch|import)[=(\s\"']+https?://")


class ReadOnlyTest(OverServer):
    access = Access(None, True)

    def test_nothing_is_written(self) -> None:
        self.assertEqual(self.sql("DELETE FROM m", token=None)[0], 403)
        self.assertEqual(self.sql("DELETE FROM m", token="None")[0], 403)
        self.assertEqual(self.ask("POST", "/start", "")[0], 403)
        self.assertEqual(self.sql("SELECT * FROM m", token=None)[0], 200)


class PrivateTest(OverServer):
    access = Access("secret", True, True)

    def test_reading_needs_the_token(self) -> None:
        for method, path in (
            ("GET", "/state"),
            ("GET", "/aggregates"),
            ("GET", "/events"),
            ("GET", "/metrics"),
            ("GET", "/pictures/c"),
            ("POST", "/search"),
            ("POST", "/stop"),
        ):
            self.assertEqual(self.ask(method, path, "" if method == "POST" else None)[0], 401, path)
        self.assertEqual(self.ask("GET", "/")[0], 200)
        self.assertEqual(self.ask("GET", "/aggregates/c", Authorization="Bearer secret")[0], 200)
        self.assertEqual(self.ask("GET", "/aggregates/c", Authorization="Bearer other")[0], 401)
        self.assertEqual(self.sql("SELECT * FROM m", token=None)[0], 401)
        self.assertEqual(self.sql("SELECT * FROM m")[0], 200)
        self.assertEqual(self.sql("DELETE FROM m")[0], 403)


class NamesTest(OverServer):
    def test_texts_and_scales(self) -> None:
        Path(self.folder, "tsctl.names").write_text('tsctl.names 1\ntext k 1 "a, \\"b\\""\nscale v 2\n')
        (row, *_) = json.loads(self.ask("GET", "/aggregates/c?from=20")[1])["rows"]
        self.assertEqual((row["k"], row["mean"], row["n"]), ('a, "b"', 0.7, 1), "what the command line says goes first")
        rows = list(csv.reader(io.StringIO(self.ask("GET", "/aggregates/c?from=20&format=csv")[1])))
        self.assertEqual(rows[1], ["1970-01-01T00:00:20Z", 'a, "b"', "0.7", "1", "true", "false"])
        (told,) = self.sql("SELECT * FROM m WHERE time = 25")[1]
        self.assertEqual(told["rows"], [{"time": "1970-01-01T00:00:25Z", "k": 'a, "b"', "v": 0.07}])
        told = json.loads(self.ask("GET", "/pictures/c")[1])
        self.assertEqual([line["names"] for line in told["lines"]], [['a, "b"'], ["2"]])
        about = json.loads(self.ask("GET", "/aggregates")[1])["aggregates"][0]
        self.assertEqual(about["scales"], {"mean": 1})
        with open(Path(self.folder, "tsctl.names"), "a") as names:
            names.write('text k 2 "late"\n')
        self.sql("INSERT INTO m VALUES (1, 1, 1)")
        self.assertEqual(
            [line["names"] for line in json.loads(self.ask("GET", "/pictures/c")[1])["lines"]], [['a, "b"'], ["late"]]
        )

    def test_dates_and_texts_in_statements(self) -> None:
        Path(self.folder, "tsctl.names").write_text(
            'tsctl.names 1\ntimes s\ntext k 1 "north"\ntext k 2 "s\u00fcd"\n', encoding="utf-8"
        )
        self.ask("GET", "/aggregates")
        status, replies = self.sql(
            "w: INSERT INTO m VALUES ('1970-01-01 00:01:10', 's\u00fcd', 5), (71, 'north', 6)\nSELECT * FROM m WHERE"
            " time >= '1970-01-01T00:01:00Z'".encode(),
            "w",
        )
        self.assertEqual((status, replies[0]["reply"]), (200, ["w: COMMIT @8 +2 -0"]), replies)
        self.assertEqual(replies[1]["rows"][0], {"time": "1970-01-01T00:01:10Z", "k": "s\u00fcd", "v": 5})
        status, told = self.sql("COMMIT\nINSERT INTO m VALUES ('1970-13-01', 1, 5)")
        self.assertEqual((status, told["replies"][0]["reply"]), (400, ["op: FAULT E18 no_block"]))
        self.assertIn("line 2 wasn't put in: '1970-13-01'", told["error"])
        self.assertEqual(self.sql("DELETE FROM m WHERE time < '1980-01-01'", token=None)[0], 401)
        self.assertEqual(self.sql("INSERT INTO m VALUES (75, 'west', 5)")[1][0]["reply"], ["op: COMMIT @9 +1 -0"])
        self.assertIn('text k 3 "west"', Path(self.folder, "tsctl.names").read_text(encoding="utf-8"))

    def test_keys(self) -> None:
        told = json.loads(self.ask("GET", "/pictures/c?keys=2")[1])
        self.assertEqual(
            ([line["keys"] for line in told["lines"]], [line["keys"] for line in told["others"]]), ([["2"]], [["1"]])
        )
        for wrong in ("x", "1,2", "1;"):
            self.assertEqual(self.ask("GET", f"/pictures/c?keys={wrong}")[0], 400, wrong)

    def test_drops(self) -> None:
        self.sql(
            "INSERT INTO m VALUES (3012, 1, 1)\nCALL refresh_continuous_aggregate('c', NULL, NULL)\nSELECT"
            " drop_chunks('m', 2000)\nINSERT INTO m VALUES (3013, 1, 1)"
        )
        told = json.loads(self.ask("GET", "/pictures/c")[1])
        self.assertEqual((told["stale"], told["dropped"]), ([["3010", "3020"]], [["10", "40"]]))
        rows = json.loads(self.ask("GET", "/aggregates/c")[1])
        self.assertEqual(rows["dropped_before"], "1970-01-01T00:00:40Z")
        dropped = {"from": "1970-01-01T00:00:10Z", "to": "1970-01-01T00:00:40Z"}
        stale = {"from": "1970-01-01T00:50:10Z", "to": "1970-01-01T00:50:20Z"}
        self.assertEqual((rows["stale"], rows["dropped"]), ([stale], [dropped]))
        self.assertEqual([(row["stale"], row["dropped"]) for row in rows["rows"]],
                         [(False, True)] * 4 + [(True, False)])  # fmt: skip
        _, (answer,) = self.sql("SELECT * FROM c")
        self.assertEqual((answer["stale"], answer["dropped"]), ([stale], [dropped]))
        self.assertIn('tsctl_stale_ranges{aggregate="c"} 1', self.ask("GET", "/metrics")[1])
        span = {"from": "1970-01-01T00:00:00.000Z", "to": "1970-01-01T01:00:00.000Z"}
        asked = json.dumps({"range": span, "annotation": {"query": "c"}})
        regions = json.loads(self.ask("POST", "/annotations", asked, Content_Type="application/json")[1])
        self.assertEqual([(region["tags"], region["time"], region["timeEnd"]) for region in regions],
                         [(["dropped", "c"], 10000, 40000), (["stale", "c"], 3010000, 3020000)])  # fmt: skip


class AnswersTest(OverServer):
    most_rows = 3

    def test_rows_as_json(self) -> None:
        told = json.loads(self.ask("GET", "/aggregates/c?from=20&to=1970-01-01T00:00:40Z")[1])
        self.assertEqual(
            (told["position"], told["watermark"], told["count"], told["next"]), (7, "1970-01-01T00:00:40Z", 3, None)
        )
        self.assertEqual(told["rows"][0], {"b": "1970-01-01T00:00:20Z", "k": 1, "mean": 0.7, "n": 1, "stale": True,
                                           "dropped": False})  # fmt: skip
        self.assertEqual(told["stale"], [{"from": "1970-01-01T00:00:20Z", "to": "1970-01-01T00:00:30Z"}])

    def test_rows_in_parts(self) -> None:
        told, rows = json.loads(self.ask("GET", "/aggregates/c?limit=2")[1]), []
        rows += told["rows"]
        self.assertEqual((told["count"], told["given"], told["next"]), (4, 1, "1970-01-01T00:00:20Z"))
        told = json.loads(self.ask("GET", f"/aggregates/c?from={told['next']}")[1])
        self.assertEqual(len(rows + told["rows"]), 4)

    def test_rows_as_csv(self) -> None:
        headers: list[dict[str, str]] = [{"Accept": "text/csv"}, {}]
        for words in headers:
            text = self.ask("GET", "/aggregates/c?where=b%20%3C%2020" + "&format=csv" * (not words), **words)[1]
            self.assertEqual(list(csv.reader(io.StringIO(text))), [
            ["b", "k", "mean", "n", "stale", "dropped"], ["1970-01-01T00:00:10Z", "1", "0.5", "1", "false", "false"],
        ])  # fmt: skip
        text = self.ask(
            "POST", "/sql", "SELECT * FROM c WHERE b = 10\nSELECT * FROM m WHERE time = 12", Accept="text/csv"
        )[1]
        self.assertEqual(text, "b,k,mean,n,stale,dropped\n1970-01-01T00:00:10Z,1,0.5,1,false,false\n\n"
                               "time,k,v\n1970-01-01T00:00:12Z,1,5\n")  # fmt: skip
        self.assertEqual(self.ask("POST", "/sql", "SELECT * FROM d", Accept="text/csv")[0], 422)

    def test_no_csv_is_cut_in_silence(self) -> None:
        self.assertEqual(self.ask("GET", "/aggregates/c?format=csv")[0], 413)
        self.assertEqual(self.ask("GET", "/aggregates/c?format=csv&from=30")[0], 200)
        status, text = self.ask("POST", "/sql", "SELECT * FROM m WHERE time = 12\nSELECT * FROM m", Accept="text/csv")
        self.assertEqual((status, "the answer to line 2 has 5 rows" in text), (413, True))

    def test_questions_that_are_wrong(self) -> None:
        for path in ("/aggregates/m", "/aggregates/no", "/pictures/no", "/pictures/c?columns=n,no",
                     "/aggregates/c%0aa"):  # fmt: skip
            self.assertEqual(self.ask("GET", path)[0], 404, path)
        for path in (
            "/aggregates/c?from=x",
            "/aggregates/c?where=no%20%3E%201",
            "/aggregates/c?where=b%20%3E%201%0ac1:%20COMMIT",
            "/aggregates/c?where=" + "b" * 3000,
        ):
            self.assertEqual(self.ask("GET", path)[0], 400, path)

    def test_pictures(self) -> None:
        told = json.loads(self.ask("GET", "/pictures/c?columns=mean")[1])
        self.assertEqual(
            told["lines"],
            [
                {"keys": ["1"], "names": ["1"], "points": [[[10, 0.5], [20, 0.7]]]},
                {"keys": ["2"], "names": ["2"], "points": [[[20, 0.8]]]},
            ],
        )
        self.assertEqual(
            (told["stale"], told["watermark"], told["cell"], told["width"]), ([["20", "30"]], "40", 10, 10)
        )
        self.assertEqual(told["table"]["rows"][-1], ["1970-01-01T00:00:30Z", "1", "null", "1", "false", "false"])

    def test_pictures_of_several_columns(self) -> None:
        told = json.loads(self.ask("GET", "/pictures/c")[1])
        points = [[[10, 0.5], [20, 0.7]], [[10, 1], [20, 1], [30, 1]]]
        self.assertEqual((told["columns"], told["lines"][0]["points"]), (["mean", "n"], points))
        told = json.loads(self.ask("GET", "/pictures/c?columns=n,mean,n")[1])
        self.assertEqual((told["columns"], told["lines"][1]["points"]), (["n", "mean"], [[[20, 1]], [[20, 0.8]]]))

    def test_recent_pictures_are_shared(self) -> None:
        def position(words: str) -> Any:
            return json.loads(self.ask("GET", f"/pictures/c?{words}")[1])["position"]

        with mock.patch.object(views, "SHARE", 10000):
            self.assertEqual(position("recent=1"), 7)
            self.sql("INSERT INTO m VALUES (1, 1, 1)")
            self.assertEqual([position(words) for words in ("recent=1", "recent=1&columns=n", "")], [7, 8, 8])
        with mock.patch.object(views, "SHARE", 0):
            self.sql("INSERT INTO m VALUES (1, 1, 1)")
            self.assertEqual([position("recent=1&columns=mean") for _ in range(2)], [9, 9])
            self.sql("INSERT INTO m VALUES (1, 1, 1)")
            self.assertEqual(position("recent=1&columns=mean"), 10)

    def test_long_answers_are_cut_and_say_so(self) -> None:
        (told,) = self.sql("SELECT * FROM m")[1]
        self.assertEqual((told["count"], told["given"], len(told["rows"])), (5, 3, 3))

    def test_refusals_are_explained(self) -> None:
        (told,) = self.sql("SELECT * FROM m LIMIT 1")[1]
        self.assertEqual((told["fault"]["number"], told["fault"]["place"]), ("E05", 21))
        self.assertEqual(told["fault"]["shown"][1].index("^") - 4, 20)

    def test_metrics(self) -> None:
        status, text = self.ask("GET", "/metrics")
        self.assertEqual((status, text.split("\n")[2]), (200, "tsctl_up 1"))

    def test_stop(self) -> None:
        self.assertEqual(self.ask("POST", "/stop", "")[0], 401)
        self.assertEqual(self.ask("POST", "/stop", "", Authorization="Bearer secret")[0], 409)
        self.shared.longest = 0.05

        def slow(_: FirstRows, texts: Iterable[str]) -> list[str]:
            time.sleep(0.2)
            return list(texts)

        values = ", ".join(f"({at}, 1, 1)" for at in range(1000))
        self.sql("\n".join([f"INSERT INTO m VALUES {values}"] * 30))
        with mock.patch.object(FirstRows, "__call__", slow):
            status, told = self.sql("SELECT * FROM m")
        self.shared.longest = 60.0
        self.assertEqual(status, 504, told)
        self.assertEqual(self.sql("COMMIT")[0], 200)

    def test_a_client_that_goes_gives_its_question_up(self) -> None:
        values = ", ".join(f"({at}, 1, 1)" for at in range(1000))
        self.sql("\n".join([f"INSERT INTO m VALUES {values}"] * 30))
        begun = threading.Event()

        def slow(_keep: FirstRows, texts: Iterable[str]) -> list[str]:
            begun.set()
            for _ in texts:
                time.sleep(0.0005)
            return []

        with mock.patch.object(FirstRows, "__call__", slow):
            link = socket.create_connection(("127.0.0.1", self.port), 10)
            body = b"SELECT * FROM m"
            link.sendall(b"POST /sql HTTP/1.1\r\nHost: localhost\r\nContent-Length: %d\r\n\r\n%s" % (len(body), body))
            self.assertTrue(begun.wait(10))
            endings = self.shared.endings
            link.close()
            await_that(lambda: self.shared.endings > endings)
        self.assertEqual(self.shared.endings, endings + 1)
        self.assertEqual(self.sql("COMMIT")[0], 200)

    def test_events(self) -> None:
        link = socket.create_connection(("127.0.0.1", self.port), 10)
        link.sendall(b"GET /events HTTP/1.1\r\nHost: localhost\r\n\r\n")
        stream = link.makefile("r")
        data = (json.loads(line[6:]) for line in stream if line.startswith("data: "))
        self.assertEqual(next(data)["position"], 7)
        self.sql("INSERT INTO m VALUES (1, 1, 1)")
        self.assertEqual(next(data)["position"], 8)
        stream.close()
        link.close()


RANGE = {"from": "1970-01-01T00:00:15.000Z", "to": "1970-01-01T00:00:28.000Z"}


class GrafanaTest(OverServer):
    """The shapes that the pages of simpod-json-datasource and simple-json-datasource have."""

    def grafana(self, path: str, asked: Any) -> Any:
        status, text = self.ask("POST", path, json.dumps(asked), Content_Type="application/json")
        self.assertEqual(status, 200, text)
        return json.loads(text)

    def test_search(self) -> None:
        self.assertEqual(self.ask("GET", "/")[0], 200)
        self.assertEqual(self.grafana("/search", {"target": "upper_50"}), ["c.mean", "c.n"])
        self.assertEqual(
            self.grafana("/metrics", {"metric": "", "payload": {}})[0], {"label": "c.mean", "value": "c.mean"}
        )

    def test_query(self) -> None:
        asked: dict[str, Any] = {
            "panelId": 1, "range": RANGE | {"raw": {"from": "now-6h", "to": "now"}}, "intervalMs": 30000,
            "maxDataPoints": 550,
            "targets": [{"target": "c.mean", "refId": "A", "type": "timeserie"}, {"target": "", "refId": "C"}],
            "adhocFilters": [], "format": "json",
        }  # fmt: skip
        self.assertEqual(
            self.grafana("/query", asked),
            [
                {"target": "c.mean, k 1", "datapoints": [[0.5, 10000], [0.7, 20000]]},
                {"target": "c.mean, k 2", "datapoints": [[0.8, 20000]]},
            ],
        )
        asked["targets"] = [{"target": "c.mean", "refId": "B", "payload": {"format": "table"}}]
        (table,) = self.grafana("/query", asked)
        self.assertEqual(table["columns"][0], {"text": "b", "type": "time"})
        self.assertEqual((table["type"], table["rows"][1]), ("table", [20000, 1, 0.7, 1, "true", "false"]))

    def test_annotations(self) -> None:
        annotation = {"name": "stale", "datasource": "tsctl", "enable": True, "query": "c"}
        asked: dict[str, Any] = {"range": RANGE, "annotation": annotation}
        (region,) = self.grafana("/annotations", asked)
        self.assertEqual(
            (region["time"], region["timeEnd"], region["isRegion"], region["annotation"]),
            (20000, 28000, True, asked["annotation"]),
        )
        asked["annotation"]["query"] = ""
        self.assertEqual(len(self.grafana("/annotations", asked)), 1)

    def test_what_was_dropped_is_apart(self) -> None:
        self.sql("SELECT drop_chunks('m', 1000)")
        asked = {"range": RANGE, "annotation": {"name": "stale", "query": "c"}}
        (region,) = self.grafana("/annotations", asked)
        self.assertEqual((region["tags"], region["time"], region["timeEnd"]), (["dropped", "c"], 15000, 28000))

    def test_what_is_wrong(self) -> None:
        no_range = '{"targets": [{"target": "c.mean"}]}'
        wrong_range = '{"targets": [{"target": "c.mean"}], "range": {"from": 7, "to": []}}'
        for path, body in (("/query", "x"), ("/query", "[]"), ("/query", "{}"), ("/query", no_range),
                           ("/annotations", "{}"), ("/query", wrong_range)):  # fmt: skip
            self.assertEqual(self.ask("POST", path, body)[0], 400, (path, body))


class FaultsTest(OverServer):
    def connect(self, text: bytes) -> socket.socket:
        link = socket.create_connection(("127.0.0.1", self.port), 10)
        self.addCleanup(link.close)
        link.sendall(text)
        return link

    def test_a_body_without_end_and_a_head_a_byte_at_a_time(self) -> None:
        with mock.patch.object(deadlines, "SECONDS", 1):
            links = [
                self.connect(b"POST /sql HTTP/1.1\r\nHost: localhost\r\nContent-Length: 100\r\n\r\nSEL"),
                self.connect(b"GET /state HT"),
            ]
            begun = time.monotonic()
            for link in links:
                try:
                    while time.monotonic() < begun + 16 and not self.has_ended(link):
                        link.sendall(b"x")
                except OSError:
                    pass
            self.assertLess(time.monotonic() - begun, 15)
        self.assertEqual(self.ask("GET", "/state")[0], 200)

    def has_ended(self, link: socket.socket) -> bool:
        link.settimeout(0.2)
        try:
            return link.recv(100) == b""
        except TimeoutError:
            return False

    def test_a_client_that_goes_before_its_reply(self) -> None:
        for _ in range(20):
            link = self.connect(
                b"POST /sql?session=g HTTP/1.1\r\nHost: localhost\r\nAuthorization: Bearer secret\r\nContent-Length:"
                b" 30\r\n\r\nINSERT INTO m VALUES (1, 1, 1)"
            )
            link.close()
        await_that(lambda: self.shared.position == 27)
        self.assertEqual(self.sql("DELETE FROM m WHERE time = 1")[1][0]["reply"], ["op: COMMIT @28 +0 -20"])

    def test_64_clients(self) -> None:
        found = []

        def work(number: int) -> None:
            for _ in range(5):
                text = (
                    f"BEGIN\nINSERT INTO m VALUES ({number}, {number}, 1)\nSELECT * FROM m WHERE k = {number}\nCOMMIT"
                )
                status, replies = self.sql(text, f"s{number}")
                found.append(
                    (
                        status,
                        {it["reply"][0].split(": ")[0] for it in replies},
                        {it["k"] for it in replies[2]["rows"]},
                        number,
                    )
                )

        threads = [threading.Thread(target=work, args=(number,)) for number in range(100, 164)]
        for thread in threads:
            thread.start()
        for thread in threads:
            thread.join()
        self.assertEqual(len(found), 320)
        for status, names, keys, number in found:
            self.assertEqual((status, names, keys), (200, {f"s{number}"}, {number}))
        self.assertEqual(self.shared.position, 327)

    def test_too_many_connections(self) -> None:
        with mock.patch.object(self.server, "room", threading.Semaphore(1)):
            self.connect(b"GET /events HTTP/1.1\r\nHost: localhost\r\n\r\n").recv(100)
            self.assertEqual(self.ask("GET", "/state")[0], 503)

    @mock.patch.object(deadlines, "SECONDS", 120)
    @mock.patch.object(web.Handler, "timeout", 120)
    def test_200_connections(self) -> None:
        links = [self.connect(b"") for _ in range(200)]
        time.sleep(0.5)
        answers = []
        for link in links:
            try:
                link.sendall(b"GET /state HTTP/1.1\r\nHost: localhost\r\nConnection: close\r\n\r\n")
                answers.append(link.makefile("rb").readline().split(b" ")[1])
            except (ConnectionError, IndexError):
                answers.append(b"gone")
        counts = collections.Counter(answers)
        self.assertEqual(counts[b"200"], web.MOST_CONNECTIONS, counts)
        self.assertEqual(set(counts) - {b"200", b"503", b"gone"}, set(), counts)
        self.assertEqual(self.ask("GET", "/state")[0], 200)

    def test_a_listener_that_sleeps(self) -> None:
        with mock.patch.object(deadlines, "SECONDS", 1), mock.patch.object(web, "SECONDS_BETWEEN_EVENTS", 0):
            link = socket.socket()
            link.setsockopt(socket.SOL_SOCKET, socket.SO_RCVBUF, 4096)
            self.addCleanup(link.close)
            link.connect(("127.0.0.1", self.port))
            link.sendall(b"GET /events HTTP/1.1\r\nHost: localhost\r\n\r\n")
            end = time.monotonic() + 60
            while time.monotonic() < end and self.listening() == 0:
                time.sleep(0.01)
            while time.monotonic() < end and self.listening():
                self.shared.news.tell()
                time.sleep(0.0005)
        self.assertEqual(self.listening(), 0, "what isn't read is given up")
        self.assertEqual(self.sql("COMMIT")[0], 200)

    def listening(self) -> int:
        return web.MOST_LISTENERS - self.server.listeners._value

    def test_the_program_is_killed(self) -> None:
        self.sql("BEGIN", "w")
        running(self.shared).kill()
        self.assertEqual(self.sql("COMMIT", "r")[0], 502)
        self.assertEqual(self.sql("COMMIT", "r")[0], 503)
        state = json.loads(self.ask("GET", "/state")[1])
        self.assertEqual((state["running"], state["ending"], state["position"]), (False, "signal 9", 7))
        self.assertEqual(self.ask("POST", "/start", "", Authorization="Bearer secret")[0], 200)
        self.assertEqual(self.sql("COMMIT", "w")[0], 409)
        self.assertEqual(self.sql("COMMIT", "w")[1][0]["reply"], ["w: FAULT E18 no_block"])

    def test_statements_before_the_end_are_told(self) -> None:
        program = running(self.shared)
        asked = program.ask

        def ask(raw: bytes, *how: Any) -> Reply:
            if b"time = 7" in raw:
                running(self.shared).kill()
            return asked(raw, *how)

        with mock.patch.object(program, "ask", ask):
            status, told = self.sql("INSERT INTO m VALUES (1, 1, 1)\nDELETE FROM m WHERE time = 7\nCOMMIT")
        self.assertEqual((status, [it["reply"] for it in told["replies"]]), (502, [["op: COMMIT @8 +1 -0"]]))


class FairTest(OverServer):
    def test_a_loader_doesnt_shut_readers_out(self) -> None:
        stop = threading.Event()

        def load() -> None:
            while not stop.is_set():
                self.say(self.shared, "feed", "SELECT * FROM m", source="input")

        loader = threading.Thread(target=load)
        loader.start()
        begun = time.monotonic()
        for _ in range(50):
            self.assertEqual(self.sql("COMMIT")[0], 200)
        stop.set()
        loader.join()
        self.assertLess(time.monotonic() - begun, 60)


if __name__ == "__main__":
    main()
