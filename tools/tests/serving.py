"""A server of `tsq serve` over a folder of its own, for tests: in this process, or as a program."""
from __future__ import annotations

import http.client
import json
import os
import re
import shutil
import subprocess
import sys
import tempfile
import threading
import time
import unittest
from collections.abc import Callable, Iterator, Sequence
from pathlib import Path
from typing import IO, Any

from tsqlib import programs
from tsqlib.access import Access
from tsqlib.dictionary import Dictionary
from tsqlib.metrics import Metrics
from tsqlib.replies import cells_of
from tsqlib.seats import Owner
from tsqlib.serve import State
from tsqlib.sessions import Sessions, Statement, Told
from tsqlib.views import Views
from tsqlib.web import Server

TSQ = Path(__file__).resolve().parents[1] / "tsq"
SETUP = """a: CREATE TABLE m (time BIGINT NOT NULL, k BIGINT NOT NULL, v BIGINT)
a: SELECT create_hypertable('m', 'time', chunk_time_interval => 1000)
a: CREATE MATERIALIZED VIEW c WITH (timescaledb.continuous) AS SELECT time_bucket(10, time) AS b, k, avg(v) AS mean, \
count(*) AS n FROM m GROUP BY b, k WITH NO DATA
a: INSERT INTO m VALUES (12, 1, 5), (25, 1, 7), (27, 2, 8), (34, 1, NULL)
a: CALL refresh_continuous_aggregate('c', NULL, NULL)
a: INSERT INTO m VALUES (26, 1, 1)
"""
NEEDS = unittest.skipUnless(
    os.environ.get("TSCTL") or shutil.which("tsctl"), "no TSCTL, and no tsctl on the PATH"
)


def stream(pipe: IO[str] | None) -> IO[str]:
    """A pipe to a program, or from it, that was asked for."""
    assert pipe
    return pipe


def running(sessions: Sessions) -> programs.Program:
    """The program of sessions, which runs."""
    assert sessions.program
    return sessions.program


def await_that(is_so: Callable[[], bool], seconds: float = 60) -> bool:
    """Waits until something is so, and says whether it was in time."""
    until = time.monotonic() + seconds
    while not is_so():
        if time.monotonic() > until:
            return False
        time.sleep(0.02)
    return True


@NEEDS
class OverFolder(unittest.TestCase):
    """A folder with a table and an aggregate with a stale bucket."""

    setup = SETUP

    def setUp(self) -> None:
        folder = tempfile.TemporaryDirectory()
        self.addCleanup(folder.cleanup)
        self.folder = folder.name
        programs.call(["run"], self.setup.encode(), self.folder)

    def sessions(self) -> Sessions:
        """The sessions over it, which have begun."""
        sessions = Sessions(self.folder)
        sessions.start()
        self.addCleanup(sessions.end)
        return sessions

    @staticmethod
    def say(sessions: Sessions, name: str, *texts: str, source: str = "client", is_whole: bool = False) -> list[Told]:
        """The replies to statements of a session."""
        lines = [Statement(f"{name}:".encode(), b" " + text.encode()) for text in texts]
        return sessions.ask(Owner(source, name), lines, lambda: cells_of, is_whole)

    def heads(self, sessions: Sessions, name: str, *texts: str, **how: Any) -> list[str]:
        """The first lines of the replies."""
        return [told.reply.heads[0] for told in self.say(sessions, name, *texts, **how)]


class Writer:
    """A run that holds a folder."""

    def __init__(self, folder: str) -> None:
        pipes: dict[str, Any] = {"stdin": subprocess.PIPE, "stdout": subprocess.PIPE, "text": True}
        self.program = subprocess.Popen([programs.tsctl(), "run"], cwd=folder, **pipes)

    def say(self, text: str) -> str:
        """The first line of the reply to a statement."""
        given = stream(self.program.stdin)
        given.write(f"w: {text}\n")
        given.flush()
        return stream(self.program.stdout).readline().rstrip("\n")

    def end(self) -> int:
        """Its exit status."""
        stream(self.program.stdin).close()
        stream(self.program.stdout).close()
        return self.program.wait()


class OverServer(OverFolder):
    """A server over it, in this process."""

    unit: Any = "s"
    access = Access("secret")
    most_rows = 100

    def setUp(self) -> None:
        super().setUp()
        self.shared = self.sessions()
        views = Views(self.shared, Dictionary(self.folder, self.unit, {"mean": 1}), self.most_rows)
        self.shared.in_numbers = views.dictionary.in_numbers
        state = State(self.folder, views, self.access, None)
        self.server = Server(0, views, self.access, state, Metrics(views, None))
        threading.Thread(target=self.server.serve_forever, args=(0.01,), daemon=True).start()
        threading.Thread(target=self.server.deadlines.watch, args=(self.server.ended,), daemon=True).start()
        self.addCleanup(self.server.server_close)
        self.addCleanup(self.server.shutdown)
        self.addCleanup(self.server.ended.set)
        self.port = self.server.server_port

    def ask(
        self, method: str, path: str, body: bytes | str | Iterator[bytes] | None = None, **headers: str
    ) -> tuple[int, str]:
        """The status and the body that a request gets."""
        link = http.client.HTTPConnection("127.0.0.1", self.port, timeout=60)
        try:
            named = {name.replace("_", "-"): value for name, value in headers.items()}
            link.request(method, path, body.encode() if isinstance(body, str) else body, named)
            answer = link.getresponse()
            return answer.status, answer.read().decode()
        finally:
            link.close()

    def sql(
        self, body: bytes | str, session: str = "op", token: str | None = "secret", **headers: str
    ) -> tuple[int, Any]:
        """The status, and the JSON of the replies to statements."""
        if token:
            headers["Authorization"] = f"Bearer {token}"
        status, text = self.ask("POST", f"/sql?session={session}", body, **headers)
        return status, json.loads(text)


class Program:
    """`tsq serve` as a program, perhaps by another one that becomes it."""

    def __init__(self, folder: str, *words: str, stdin: Any = subprocess.DEVNULL, by: Sequence[str] = ()) -> None:
        self.call = [*by, sys.executable, str(TSQ), "serve", "--in", folder, "--port", "0", *words]
        pipes: dict[str, Any] = {"stdout": subprocess.PIPE, "stderr": subprocess.PIPE, "text": True}
        self.process = subprocess.Popen(self.call, stdin=stdin, env=os.environ | {"TSQ_TOKEN": "secret"}, **pipes)
        self.said = stream(self.process.stderr).readline()
        found = re.search(r"http://127\.0\.0\.1:(\d+)/", self.said)
        self.port = int(found[1]) if found else 0

    def ask(self, method: str, path: str, body: str | None = None, token: str = "secret") -> tuple[int, str]:
        link = http.client.HTTPConnection("127.0.0.1", self.port, timeout=60)
        try:
            link.request(method, path, body, {"Authorization": f"Bearer {token}"})
            answer = link.getresponse()
            return answer.status, answer.read().decode()
        finally:
            link.close()

    def end(self, number: int, seconds: float = 30) -> tuple[int, str, str]:
        """Sends a signal, and gives the status and what was printed and said within so many seconds."""
        self.process.send_signal(number)
        printed, said = self.process.communicate(timeout=seconds)
        return self.process.returncode, printed, said
