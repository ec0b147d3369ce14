"""The page of `tsq serve` in a browser. Without one it is skipped, and says so."""
import json
import tempfile
import time
from pathlib import Path
from typing import Any
from unittest import TestCase, main, skipUnless

from tests.browser import Browser, program
from tests.serving import SETUP, OverServer, Program, running
from tests.small_disk import make_room, namespace, within
from tsqlib import web
from tsqlib.access import Access

HIDE = (
    "Object.defineProperty(document, 'hidden', {{value: {}, configurable: true}});"
    " document.dispatchEvent(new Event('visibilitychange'))"
)
SHOWN = "document.querySelectorAll('#cards .card[data-position]').length"


@skipUnless(program(), "no chromium is here, in which the page would be tried")
class InBrowser(OverServer):
    """A page in a browser."""

    def open(
        self, width: int = 1200, is_dark: bool = False, token: str = "#token=secret", query: str = ""
    ) -> Browser:
        browser = Browser(width, 900, is_dark)
        self.addCleanup(browser.end)
        browser.go(f"http://127.0.0.1:{self.port}/{query}{token}")
        return browser

    def text(self, browser: Browser, selector: str) -> Any:
        return browser.value(f"document.querySelector({json.dumps(selector)}).innerText")

    def type(self, browser: Browser, text: str) -> None:
        browser.value(
            f"document.getElementById('text').value = {json.dumps(text)};"
            " document.getElementById('form').requestSubmit()"
        )


class PageTest(InBrowser):
    def test_a_chart_that_is_kept_up_to_date(self) -> None:
        browser = self.open()
        browser.wait(SHOWN)
        self.assertEqual(browser.value("location.hash"), "", "the token is in no history")
        self.assertEqual(
            browser.value("document.querySelectorAll('path.line').length"),
            2 * 2 + 2,
            "two lines in each panel, and two in the legend",
        )
        self.assertEqual(self.text(browser, ".legend"), "k 1\nk 2")
        self.assertEqual(browser.value("document.querySelectorAll('.stale-bar, .watermark').length"), 2 * 2)
        self.assertIn("1 stale range", self.text(browser, ".verdict"))
        self.assertIn("stale 1970-01-01 00:00:20 – 00:00:30", self.text(browser, ".ranges"))
        self.assertEqual(browser.value("document.querySelectorAll('tr.stale').length"), 2)
        self.sql("INSERT INTO m VALUES (13, 1, 1)")
        browser.wait("document.querySelector('.verdict').innerText.includes('@8')")
        self.assertIn("stale 1970-01-01 00:00:10 – 00:00:30", self.text(browser, ".ranges"))
        self.sql("CALL refresh_continuous_aggregate('c', NULL, NULL)")
        browser.wait("document.querySelector('.verdict').innerText.includes('nothing stale')")
        self.assertEqual(browser.value("document.querySelectorAll('.stale-bar').length"), 0)

    def test_statements(self) -> None:
        browser = self.open()
        browser.wait(SHOWN)
        browser.value("document.querySelector('.ranges button').click()")
        self.assertEqual(
            browser.value("document.getElementById('text').value"), "CALL refresh_continuous_aggregate('c', 20, 30)"
        )
        browser.value("document.getElementById('form').requestSubmit()")
        browser.wait("document.querySelectorAll('.reply').length")
        self.assertIn("REFRESH 8 @9", self.text(browser, ".reply"))
        self.type(browser, "SELECT * FROM m LIMIT <b>1</b>")
        browser.wait("document.querySelectorAll('.reply .fault').length")
        self.assertEqual(browser.value("document.querySelectorAll('.reply b').length"), 0, "texts are no HTML")

    def test_lines_by_the_legend(self) -> None:
        browser = self.open(query="?c=mean")
        browser.wait(SHOWN)
        count = "document.querySelectorAll('.plot path.line').length"
        browser.value("document.querySelector('.legend button').click()")
        self.assertEqual(browser.value(count), 1)
        browser.value("document.querySelector('.legend button').click()")
        self.assertEqual(browser.value(count), 2)
        browser.value("document.querySelector('.legend button').dispatchEvent(new Event('dblclick'))")
        self.assertEqual(browser.value(count), 1)

    def test_cursor_keys(self) -> None:
        browser = self.open()
        browser.wait(SHOWN)
        browser.value("document.querySelector('.plot svg').focus()")
        for key in ("Home", "ArrowRight"):
            browser.value(f"document.activeElement.dispatchEvent(new KeyboardEvent('keydown', {{key: '{key}'}}))")
        self.assertEqual(
            self.text(browser, ".tip").split("\n")[:2], ["mean 1970-01-01 00:00:20 – 00:00:30", "\tk 2\t0.8"]
        )
        self.assertIn("stale 1970-01-01 00:00:20 – 00:00:30", self.text(browser, ".tip"))
        marks = "document.querySelectorAll('.cross[d^=M]').length"
        self.assertEqual(browser.value(marks), 2, "it is marked in each panel")
        self.sql("INSERT INTO m VALUES (13, 1, 1)")
        browser.wait("document.querySelector('.verdict').innerText.includes('@8')")
        self.assertIn("k 2\t0.8", self.text(browser, ".tip"), "and stays so when there is a new picture")
        browser.value("document.activeElement.dispatchEvent(new KeyboardEvent('keydown', {key: '+'}))")
        browser.wait("document.getElementById('spans').innerText.includes('Chosen')")
        browser.wait("document.activeElement.tagName === 'svg'")
        browser.value("document.activeElement.dispatchEvent(new KeyboardEvent('keydown', {key: '0'}))")
        browser.wait("!document.getElementById('spans').innerText.includes('Chosen')")

    def test_what_was_dropped_is_apart(self) -> None:
        self.sql(
            "SELECT drop_chunks('m', 1000)\nINSERT INTO m VALUES (1010, 1, 1)\nCALL refresh_continuous_aggregate('c',"
            " 40, 2000)\nSELECT drop_chunks('m', 1000)"
        )
        browser = self.open()
        browser.wait(SHOWN)
        self.assertIn("rows dropped before 1970-01-01 00:00:40", self.text(browser, ".verdict"))
        self.assertNotIn("stale range", self.text(browser, ".verdict"))
        self.assertEqual(browser.value("document.querySelectorAll('.dropped-bar').length"), 2)
        self.assertEqual(browser.value("document.querySelectorAll('.stale-bar').length"), 0)
        self.type(browser, "SELECT * FROM c")
        browser.wait("document.querySelectorAll('.reply td.mark').length")
        self.assertIn("dropped 1970-01-01T00:00:10Z..1970-01-01T00:00:40Z", self.text(browser, ".reply"))
        self.assertEqual(self.text(browser, ".reply td.mark"), "dropped")
        self.assertNotIn("stale 1970", self.text(browser, ".reply"))

    def test_names_and_scales(self) -> None:
        Path(self.folder, "tsctl.names").write_text('tsctl.names 1\ntext k 1 "<b>pump</b>"\nscale v 1\n')
        browser = self.open()
        browser.wait(SHOWN)
        self.assertEqual(self.text(browser, ".legend"), "<b>pump</b>\nk 2")
        self.assertIn("<b>pump</b>", self.text(browser, ".rows"))

    def test_without_token(self) -> None:
        browser = self.open(token="")
        browser.wait(SHOWN)
        self.type(browser, "DELETE FROM m")
        browser.wait("document.querySelectorAll('.reply .fault').length")
        self.assertIn("needs the token", self.text(browser, ".reply .fault"))
        self.assertFalse(browser.value("document.getElementById('unlock').hidden"))

    def test_endings(self) -> None:
        browser = self.open()
        browser.wait(SHOWN)
        running(self.shared).kill()
        self.sql("COMMIT")
        browser.wait("!document.getElementById('banner').hidden")
        self.assertIn("signal 9", self.text(browser, "#banner"))
        browser.value("document.querySelector('#banner button').click()")
        browser.wait("document.getElementById('banner').hidden")
        self.server.ended.set()
        self.shared.news.close()
        self.server.shutdown()
        self.server.server_close()
        browser.wait("!document.getElementById('banner').hidden")
        self.assertIn("Disconnected since", self.text(browser, "#banner"))

    def test_a_phone(self) -> None:
        for is_dark in (False, True):
            browser = self.open(390, is_dark)
            browser.wait(SHOWN)
            self.assertLessEqual(browser.value("document.documentElement.scrollWidth"), 390)


class ColumnsTest(InBrowser):
    setup = SETUP.replace("count(*) AS n", "count(*) AS n, max(v) AS a, min(v) AS b2, sum(v) AS s, max(time) AS latest")
    NAMES = "[...document.querySelectorAll('.panel .name')].map((text) => text.textContent).join()"
    ASKED = (
        "performance.getEntriesByType('resource').map((it) => it.name).filter((name) => name.includes('/pictures/'))"
        ".map((name) => new URL(name).searchParams.get('columns')).join(' ')"
    )
    CHOSEN = "[...document.querySelectorAll('.columns :checked')].map((box) => box.value).join()"

    def toggle(self, browser: Browser, name: str) -> None:
        """Chooses a column, as the space bar does."""
        browser.value(f"document.querySelector('.columns input[value={name}]').focus()")
        for kind in ("keyDown", "keyUp"):
            browser.call("Input.dispatchKeyEvent", type=kind, key=" ", code="Space", windowsVirtualKeyCode=32)

    def test_columns_are_chosen(self) -> None:
        browser = self.open()
        browser.wait(SHOWN)
        self.assertEqual(browser.value(self.NAMES), "mean,n,a,b2", "the first four")
        self.assertEqual(browser.value("location.search"), "")
        self.toggle(browser, "n")
        self.assertEqual((browser.value(self.NAMES), browser.value("location.search")), ("mean,a,b2", "?c=mean,a,b2"))
        self.toggle(browser, "n")
        self.assertEqual((browser.value(self.NAMES), browser.value("location.search")), ("mean,n,a,b2", ""))
        self.toggle(browser, "latest")
        browser.wait(self.NAMES + " === 'mean,n,a,b2,latest'")
        self.assertEqual(browser.value(self.ASKED), "mean,n,a,b2 latest", "only what is missing is asked for")
        self.assertIn("1970-01-01", self.text(browser, ".panel:last-child"), "its values are times")
        self.sql("INSERT INTO m VALUES (13, 1, 1)")
        browser.wait("document.querySelector('.verdict').innerText.includes('@8')")
        self.assertEqual(browser.value(self.ASKED).split(" ")[-1], "mean,n,a,b2,latest")

    def test_the_address_has_them(self) -> None:
        browser = self.open(query="?c=s,n&other=7")
        browser.wait(SHOWN)
        self.assertEqual(browser.value(self.NAMES), "n,s")
        self.assertEqual(browser.value(self.CHOSEN), "n,s")
        self.toggle(browser, "n")
        self.toggle(browser, "s")
        self.assertEqual(
            (browser.value(self.NAMES), browser.value("location.search")), ("s", "?c=s&other=7"), "one stays"
        )
        browser.call("Page.reload")
        browser.wait(SHOWN + " && " + self.NAMES + " === 's'")
        browser = self.open(query="?c=no")
        browser.wait(SHOWN + " && " + self.NAMES + " === 'mean,n,a,b2'")

    def test_readers_and_fingers(self) -> None:
        browser = self.open(390)
        browser.wait(SHOWN)
        self.assertLessEqual(browser.value("document.documentElement.scrollWidth"), 390)
        self.assertGreaterEqual(browser.value("document.querySelector('.columns label').offsetHeight"), 28)
        browser.call("Accessibility.enable")
        nodes = browser.call("Accessibility.getFullAXTree")["nodes"]
        found = [(node["role"]["value"], node["name"]["value"]) for node in nodes if "role" in node and "name" in node]
        self.assertIn(("group", "Columns of c that are drawn"), found)
        self.assertIn(("checkbox", "latest"), found)


@skipUnless(program(), "no chromium is here, in which the page would be tried")
@skipUnless(namespace(), "no mount namespace may be made here, so no disk is full")
class FullDiskPageTest(TestCase):
    def test_the_page_says_why(self) -> None:
        folder = tempfile.TemporaryDirectory()
        self.addCleanup(folder.cleanup)
        server = Program(folder.name, by=within(folder.name))
        self.addCleanup(server.process.communicate)
        self.addCleanup(server.process.kill)
        server.ask("POST", "/sql", "\n".join(line.removeprefix("a: ") for line in SETUP.split("\n")))
        browser = Browser()
        self.addCleanup(browser.end)
        browser.go(f"http://127.0.0.1:{server.port}/#token=secret")
        browser.wait(SHOWN)
        rows = ", ".join(f"({at}, 1, 1)" for at in range(100, 600))
        while server.ask("POST", "/sql", f"INSERT INTO m VALUES {rows}")[0] == 200:
            pass
        browser.wait("document.getElementById('banner').innerText.includes('tsctl has ended: disk fault (status 5)')")
        browser.wait("document.getElementById('banner').innerText.includes('No space left on device')", 90)
        self.assertIn("do: free space on it", browser.value("document.getElementById('banner').innerText"))
        make_room(server.process.pid, folder.name)
        browser.value("document.querySelector('#banner button').click()")
        browser.wait("document.getElementById('banner').hidden && document.getElementById('live').innerText === 'live'")


class EmptyPageTest(InBrowser):
    setup = (
        "a: CREATE TABLE m (time BIGINT NOT NULL, v BIGINT)\na: SELECT create_hypertable('m', 'time',"
        " chunk_time_interval => 100)\n"
    )

    def test_no_aggregate_and_then_one(self) -> None:
        browser = self.open()
        browser.wait("document.body.innerText.includes('There is no aggregate yet')")
        self.type(
            browser,
            (
                "CREATE MATERIALIZED VIEW d WITH (timescaledb.continuous) AS SELECT time_bucket(10, time) AS b,"
                " count(*) FROM m GROUP BY b WITH NO DATA"
            ),
        )
        browser.wait("document.body.innerText.includes('No refresh has found a row yet')")
        self.sql("INSERT INTO m VALUES (1, 1)\nCALL refresh_continuous_aggregate('d', NULL, NULL)")
        browser.wait("document.querySelectorAll('path.line').length")


class PrivatePageTest(InBrowser):
    access = Access("secret", False, True)
    setup = SETUP

    def test_the_token_is_asked_for(self) -> None:
        browser = self.open(token="")
        browser.wait("!document.getElementById('banner').hidden")
        self.assertIn("Reading needs the token", self.text(browser, "#banner"))
        self.assertEqual(browser.value("document.querySelectorAll('#cards .card').length"), 0)
        give = "const box = document.getElementById('token'); box.value = {}; box.dispatchEvent(new Event('change'))"
        browser.value(f"(() => {{ {give.format(json.dumps('wrong'))} }})()")
        browser.wait("document.getElementById('banner').innerText.includes('This isn')")
        browser.value(f"(() => {{ {give.format(json.dumps('secret'))} }})()")
        browser.wait(SHOWN)
        self.assertTrue(browser.value("document.getElementById('banner').hidden"))


class SleepTest(InBrowser):
    """A tab that isn't seen, or that the browser has stopped."""

    def listening(self) -> int:
        return web.MOST_LISTENERS - self.server.listeners._value

    def write_much(self) -> str:
        for number in range(30):
            self.sql("\n".join(f"INSERT INTO m VALUES ({40 + number}, 1, {place})" for place in range(20)))
        return f"@{self.shared.position}"

    def test_a_hidden_tab_listens_no_longer(self) -> None:
        browser = self.open()
        browser.wait(SHOWN)
        browser.value(HIDE.format("true"))
        for _ in range(300):
            if not self.listening():
                break
            time.sleep(0.1)
        self.assertEqual(self.listening(), 0)
        told = self.write_much()
        self.assertEqual(self.text(browser, "#live"), "live", "it is no fault")
        browser.value(HIDE.format("false"))
        browser.wait(f"document.querySelector('.verdict').innerText.includes('{told}')")

    def test_a_stopped_tab_gets_the_latest(self) -> None:
        browser = self.open()
        browser.wait(SHOWN)
        browser.call("Page.setWebLifecycleState", state="frozen")
        told = self.write_much()
        self.assertEqual(self.sql("COMMIT")[0], 200)
        browser.call("Page.setWebLifecycleState", state="active")
        # Without a window it stays hidden, and draws nothing: its head has to do.
        browser.value(HIDE.format("false"))
        browser.wait(f"document.getElementById('position').innerText === '{told}'")


class ManyBucketsTest(InBrowser):
    """100,000 buckets."""

    setup = SETUP + "".join(
        "a: INSERT INTO m VALUES " + ", ".join(f"({10 * at}, 1, {at * at % 977})" for at in range(first, first + 1000))
        + "\n" for first in range(0, 100_000, 1000)
    ) + "a: CALL refresh_continuous_aggregate('c', NULL, NULL)\n"  # fmt: skip
    LETTERS = (
        "[...document.querySelectorAll('.plot path.line')].map((path) => path.getAttribute('d').length)"
        ".reduce((a, b) => a + b)"
    )

    def test_they_are_thinned_and_it_says_so(self) -> None:
        browser = self.open()
        browser.wait(SHOWN, 90)
        self.assertRegex(self.text(browser, ".note"), "Drawn thinned: .* of 100,00[0-9] rows")
        self.assertLess(browser.value(self.LETTERS), 100_000, "what is drawn is bounded")
        begun = browser.value("performance.now()")
        browser.value("window.dispatchEvent(new Event('resize')); document.querySelector('.panel svg').focus()")
        browser.value("document.activeElement.dispatchEvent(new KeyboardEvent('keydown', {key: 'ArrowRight'}))")
        self.assertLess(browser.value("performance.now()") - begun, 5000)
        self.assertIn("k 1", self.text(browser, ".tip"))
        while note := self.text(browser, ".note"):
            browser.value(
                "document.querySelector('.panel svg').dispatchEvent(new KeyboardEvent('keydown', {key: '+'}))"
            )
            browser.wait(f"document.querySelector('.note').innerText !== {json.dumps(note)}", 60)
        self.assertGreater(browser.value(self.LETTERS), 1000, "a short range has all its rows")


class ManyKeysTest(InBrowser):
    setup = (
        SETUP
        + "a: INSERT INTO m VALUES "
        + ", ".join(f"(34, {key}, {key})" for key in range(3, 60))
        + "\na: CALL refresh_continuous_aggregate('c', NULL, NULL)\n"
    )

    def test_keys_are_chosen(self) -> None:
        browser = self.open()
        browser.wait(SHOWN)
        self.assertIn("35 others", self.text(browser, ".legend"))
        browser.value("document.querySelector('.legend .link').click()")
        browser.value(
            "document.querySelectorAll('.chooser input[type=checkbox]').forEach((box) => { box.checked = box.value ==="
            " '58'; })"
        )
        browser.value("document.querySelector('.chooser .act').click()")
        browser.wait("document.querySelectorAll('.legend button').length === 2")
        self.assertIn("k 58", self.text(browser, ".legend"))
        self.sql("INSERT INTO m VALUES (35, 58, 1)")
        browser.wait("document.querySelector('.verdict').innerText.includes('@10')")
        self.assertEqual(browser.value("document.querySelectorAll('.plot path.line').length"), 2)


if __name__ == "__main__":
    main()
