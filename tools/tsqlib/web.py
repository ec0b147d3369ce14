"""The HTTP server of `tsq serve`: who may ask, how much, and what each path answers."""
from __future__ import annotations

import hmac
import json
import re
import select
import socket
import threading
import time
from collections.abc import Callable
from functools import partial
from http.server import BaseHTTPRequestHandler, ThreadingHTTPServer
from pathlib import Path
from typing import Any
from urllib.parse import parse_qsl, urlsplit

from . import deadlines, metrics
from .access import Access
from .answers import csv_ranges
from .deadlines import Count, Deadlines
from .follower import asks
from .grafana import Grafana
from .messages import Trouble
from .metrics import Metrics
from .refusals import explanation, meanings
from .samples import FirstRows
from .seats import Owner
from .sessions import Ended, GivenUp, Lost, Sessions, Statement, Told, Unsent
from .statements import SESSION, lines_of
from .turns import Stopped
from .views import Refused, Views, csv_text, dumped, fields_of_rows, object_of, too_long

PAGE = Path(__file__).resolve().parent / "page"
SCRIPTS = ("page", "cards", "chart", "server", "texts")
FILES = {
    "/": ("page.html", "text/html; charset=utf-8"),
    "/page.css": ("page.css", "text/css; charset=utf-8"),
} | {f"/{name}.js": (f"{name}.js", "text/javascript; charset=utf-8") for name in SCRIPTS}
JSON, CSV = "application/json", "text/csv; charset=utf-8"
NAMES = {"127.0.0.1", "localhost", "[::1]"}
MOST_BODY = 1_048_576
MOST_LINES = 1000
MOST_FIELDS = 1000
MOST_CONNECTIONS = 128
MOST_LISTENERS = 64
KEPT_ALIVE = 15
SECONDS_BETWEEN_EVENTS = 0.02
READ_ONLY = "nothing may be written here (tsq serve --read-only)"
NONE_TO_STOP = "no question runs, or one by which a session would lose a block, a refresh or policies"
NEEDS_TOKEN = "needs the token that tsq serve has said: Authorization: Bearer TOKEN"
SAFE_HEADERS = {
    "Content-Security-Policy": "default-src 'none'; script-src 'self'; style-src 'self'; connect-src 'self';"
    " img-src data:; base-uri 'none'; form-action 'none'; frame-ancestors 'none'",
    "X-Content-Type-Options": "nosniff",
    "Cross-Origin-Resource-Policy": "same-origin",
    "Referrer-Policy": "no-referrer",
    "Cache-Control": "no-store",
}


class Server(ThreadingHTTPServer):
    """A thread for each connection, of which there are so many and no more, on this machine's own address."""

    daemon_threads = True
    block_on_close = False
    request_queue_size = MOST_CONNECTIONS

    def __init__(
        self, port: int, views: Views, access: Access, state: Callable[[], dict[str, Any]], measured: Metrics
    ) -> None:
        self.sessions: Sessions = views.sessions
        self.views = views
        self.grafana = Grafana(views)
        self.access = access
        self.state = state
        self.metrics = measured
        self.deadlines = Deadlines()
        self.room = threading.Semaphore(MOST_CONNECTIONS)
        self.listeners = threading.Semaphore(MOST_LISTENERS)
        self.telling = threading.Lock()
        self.told: tuple[int, bytes] = (-1, b"")
        self.ended = threading.Event()
        self.requests = Count()
        super().__init__(("127.0.0.1", port), Handler)

    def event(self, number: int, is_first: bool) -> bytes:
        """The event that tells this state or a later one. It is made once, however many listen, and for the first one
        that a client gets."""
        with self.telling:
            if is_first or self.told[0] < number:
                self.told = number, f"id: {number}\nevent: state\ndata: {json.dumps(self.state())}\n\n".encode()
            return self.told[1]

    def process_request(self, request: Any, client_address: Any) -> None:
        if not self.room.acquire(blocking=False):
            body = dumped({"error": f"there are {MOST_CONNECTIONS} connections already"})
            heads = [f"Content-Type: {JSON}", f"Content-Length: {len(body)}", "Connection: close", "", ""]
            head = "\r\n".join(["HTTP/1.1 503 Busy", *heads])
            try:
                request.settimeout(1)
                request.sendall(head.encode() + body)
            except OSError:
                pass
            self.shutdown_request(request)
            return
        try:
            super().process_request(request, client_address)
        except BaseException:
            self.room.release()
            raise

    def process_request_thread(self, request: Any, client_address: Any) -> None:
        try:
            super().process_request_thread(request, client_address)
        finally:
            self.deadlines.clear(request)
            self.room.release()

    def handle_error(self, request: Any, client_address: Any) -> None:
        """A client that has gone is no fault, and what is one was told to it."""


class Handler(BaseHTTPRequestHandler):
    """Follows the requests of one connection."""

    server: Server
    protocol_version = "HTTP/1.1"
    server_version = "tsq"
    sys_version = ""
    timeout = deadlines.SECONDS
    # Head and body go in one piece, at once.
    wbufsize = -1
    disable_nagle_algorithm = True

    def log_message(self, format: str, *args: Any) -> None:
        """Nothing is written down."""

    def handle_one_request(self) -> None:
        self.server.deadlines.set(self.connection)
        super().handle_one_request()

    def do_GET(self) -> None:
        self.follow("GET")

    def do_POST(self) -> None:
        self.follow("POST")

    # ---- following

    def follow(self, method: str) -> None:
        """Answers a request, or says why not."""
        parts = urlsplit(self.path)
        self.is_read = False
        try:
            self.check_origin(parts.path)
            self.query = query_of(parts.query)
            body = self.body() if method == "POST" else self.no_body()
            self.is_read = True
            self.server.deadlines.clear(self.connection)
            if self.server.access.is_private and parts.path not in FILES:
                self.need_token("reading")
            with self.server.requests:
                self.answer(method, parts.path, body)
        except Refused as refused:
            self.refuse(refused.status, refused.text)
        except (Stopped, Trouble) as stopped:
            self.refuse(*stopping(stopped))
        except (TimeoutError, ConnectionError):
            self.close_connection = True
        except Exception as error:  # A fault of serve itself ends one request.
            self.refuse(500, f"{type(error).__name__}: {error}")

    def answer(self, method: str, path: str, body: bytes) -> None:
        """Answers by the path."""
        if method == "GET" and path in FILES:
            name, kind = FILES[path]
            return self.send((PAGE / name).read_bytes(), kind)
        if (call := self.calls().get((method, path))) is not None:
            return call(body)
        for front, get in (("/aggregates/", self.get_rows), ("/pictures/", self.get_picture)):
            if method == "GET" and path.startswith(front):
                return get(path[len(front) :])
        raise Refused(404, f"{method} {path[:80]}: there is no such path")

    def calls(self) -> dict[tuple[str, str], Callable[[bytes], None]]:
        """What answers, by method and path."""
        grafana, views = self.server.grafana, self.server.views
        asked: dict[str, Callable[[Any], bytes]] = {
            "/search": grafana.search, "/metrics": grafana.metrics, "/query": grafana.query,
            "/annotations": grafana.annotations,
        }  # fmt: skip
        return {
            ("GET", "/state"): lambda _: self.send(dumped(self.server.state())),
            ("GET", "/aggregates"): lambda _: self.send(views.all()),
            ("GET", "/events"): lambda _: self.send_events(),
            ("GET", "/metrics"): lambda _: self.send(self.server.metrics.text(), metrics.KIND),
            ("POST", "/sql"): self.post_sql,
            ("POST", "/start"): lambda _: self.post_start(),
            ("POST", "/stop"): lambda _: self.post_stop(),
        } | {("POST", path): partial(self.post_grafana, call) for path, call in asked.items()}

    # ---- who asks, and how much

    def check_origin(self, path: str) -> None:
        """That the request is meant for this server, and comes from no page of another one."""
        host = self.headers.get("Host", "")
        if re.sub(r":\d+$", "", host) not in NAMES:
            raise Refused(403, "the request isn't for this machine: its Host is another one")
        origin, site = self.headers.get("Origin"), self.headers.get("Sec-Fetch-Site", "none")
        is_foreign = site not in ("none", "same-origin") and path != "/"
        if origin not in (None, f"http://{host}") or is_foreign:
            raise Refused(403, "the request comes from a page of another server")

    def no_body(self) -> bytes:
        if self.headers.get("Content-Length", "0") != "0" or "Transfer-Encoding" in self.headers:
            raise Refused(400, "a GET has no body")
        return b""

    def body(self) -> bytes:
        """The body, whose length must be told before."""
        length = self.headers.get("Content-Length", "")
        if "Transfer-Encoding" in self.headers or not re.fullmatch(r"\d{1,9}", length):
            raise Refused(411, "wanted is a body with its Content-Length")
        if int(length) > MOST_BODY:
            raise Refused(413, f"a body has at most {MOST_BODY} bytes")
        body = self.rfile.read(int(length))
        if len(body) < int(length):
            raise ConnectionError
        return body

    def has_token(self) -> bool:
        """Whether the request has the token. One that is wrong is refused."""
        given = self.headers.get("Authorization")
        if given is None:
            return False
        if self.server.access.token is None:
            raise Refused(403, READ_ONLY)
        if not hmac.compare_digest(given.encode(), f"Bearer {self.server.access.token}".encode()):
            raise Refused(401, "this isn't the token that tsq serve has said")
        return True

    def need_token(self, what: str) -> None:
        """Refuses a request without the token."""
        if self.server.access.token is None:
            raise Refused(403, READ_ONLY)
        if not self.has_token():
            raise Refused(401, f"{what} {NEEDS_TOKEN}")

    def need_to_write(self, what: str) -> None:
        """Refuses a request that may not write."""
        if self.server.access.is_read_only:
            raise Refused(403, READ_ONLY)
        self.need_token(what)

    def is_there(self) -> bool:
        """Whether the client still waits: it hasn't closed its connection."""
        try:
            is_ready = bool(select.select([self.connection], [], [], 0)[0])
            return not is_ready or self.connection.recv(1, socket.MSG_PEEK) != b""
        except OSError:
            return False

    # ---- what is sent

    def send_head(self, status: int, kind: str, length: int | None) -> None:
        self.send_response(status)
        for name, value in ({"Content-Type": kind} | SAFE_HEADERS).items():
            self.send_header(name, value)
        if length is not None:
            self.send_header("Content-Length", str(length))
        if length is None or self.close_connection:
            self.send_header("Connection", "close")
        self.end_headers()

    def send(self, body: bytes, kind: str = JSON, status: int = 200) -> None:
        """An answer, at once."""
        self.send_head(status, kind, len(body))
        self.write(body)

    def write(self, part: bytes) -> None:
        """Writes what is ready; a client that takes it too slowly is given up."""
        self.server.deadlines.set(self.connection)
        self.wfile.write(part)
        self.wfile.flush()
        self.server.deadlines.clear(self.connection)

    def refuse(self, status: int, text: str, **more: Any) -> None:
        """Why a request isn't followed. What is left of its body isn't read, so the connection ends."""
        self.close_connection = True
        try:
            self.send(dumped({"error": text} | more), status=status)
            if not self.is_read:
                self.linger()
        except OSError:
            pass

    def linger(self) -> None:
        """Takes for a moment what the client still sends: it reads no answer where the connection is reset by that."""
        self.connection.settimeout(1)
        self.connection.shutdown(socket.SHUT_WR)
        for _ in range(64):
            if not self.connection.recv(65536):
                return

    def send_events(self) -> None:
        """Tells the position as it changes, and once in a while that the connection stands."""
        if not self.server.listeners.acquire(blocking=False):
            raise Refused(503, f"{MOST_LISTENERS} listen already")
        try:
            self.close_connection = True
            self.send_head(200, "text/event-stream", None)
            news, seen = self.server.sessions.news, -1
            while not self.server.ended.is_set():
                number = news.wait(seen, KEPT_ALIVE)
                self.write(b": nothing new\n\n" if number == seen else self.server.event(number, seen < 0))
                seen = number
                time.sleep(SECONDS_BETWEEN_EVENTS)
        finally:
            self.server.listeners.release()

    # ---- what is asked

    def wants_csv(self) -> bool:
        accept = self.headers.get("Accept", "")
        return self.query.get("format") == "csv" or "text/csv" in accept and "application/json" not in accept

    def get_rows(self, view: str) -> None:
        form = "csv" if self.wants_csv() else "json"
        self.send(self.server.views.rows(view, self.query, form), CSV if form == "csv" else JSON)

    def get_picture(self, view: str) -> None:
        self.send(self.server.views.picture(view, self.query))

    def post_grafana(self, call: Callable[[Any], bytes], body: bytes) -> None:
        try:
            asked = json.loads(body or b"{}")
        except ValueError:
            raise Refused(400, "the body is no JSON") from None
        self.send(call(asked))

    def post_stop(self) -> None:
        """Lets the question be given up that runs now."""
        self.need_token("stopping a question")
        if not self.server.sessions.stop_question():
            raise Refused(409, NONE_TO_STOP)
        self.send(dumped({"stopped": True}))

    def post_start(self) -> None:
        self.need_to_write("starting tsctl")
        self.server.sessions.start()
        self.send(dumped(self.server.state()))

    def post_sql(self, body: bytes) -> None:
        """Puts the lines of the body in, in the session that the request names."""
        self.server.views.dictionary.update()
        name = self.query.get("session", "web")
        if not SESSION.fullmatch(f"{name}:"):
            raise Refused(400, "session: a name of 1 to 16 letters, digits and _, with a letter from a to z in front")
        lines = statements_in(body, name)
        only_asks = all(asks(line.text()) for line in lines)
        if not only_asks:
            self.need_to_write("a statement that may write")
        # Without the right to write a request is a whole, and a session of another kind.
        is_reader = self.server.access.is_read_only or not self.has_token()
        owner = Owner("reader" if is_reader else "client", name)
        keeps: list[FirstRows] = []

        def keep() -> FirstRows:
            keeps.append(FirstRows(self.server.views.most_rows))
            return keeps[-1]

        try:
            told = self.server.sessions.ask(owner, lines, keep, is_reader, self.is_there)
        except Stopped as stopped:
            status, text = stopping(stopped)
            replies = [json.loads(self.told_json(it, keep)) for it, keep in zip(stopped.told, keeps)]
            return self.refuse(status, text, replies=replies)
        if self.wants_csv():
            return self.send_csv(told, keeps)
        self.send(("[" + ",\n".join(map(self.told_json, told, keeps)) + "]\n").encode())

    def told_json(self, told: Told, keep: FirstRows) -> str:
        """A reply as an object of JSON."""
        told = self.server.views.parted(told)
        reply = told.reply
        fields: dict[str, str] = {"line": str(reply.line.number), "session": json.dumps(reply.line.session),
                                  "reply": json.dumps(reply.heads), "position": str(told.position)}  # fmt: skip
        if fault := reply.fault():
            words: dict[str, Any] = {"number": fault[0], "word": fault[1], "place": fault[2] and int(fault[2])}
            words |= {"meaning": meanings().get(fault[0]), "shown": explanation(reply, is_numbered=False)}
            fields["fault"] = json.dumps(words)
        if told.output:
            fields |= {"columns": json.dumps(told.output.names)}
            fields |= {"count": str(keep.count), "given": str(len(reply.rows))}
            fields |= fields_of_rows(reply, told.output, self.server.views.dictionary.style())
        return object_of(fields)

    def send_csv(self, told: list[Told], keeps: list[FirstRows]) -> None:
        """The answers as CSV, with an empty line between them. A refusal, or one that is too long, in their place."""
        for it, keep in zip(told, keeps):
            if keep.next:
                raise Refused(413, too_long(keep, f"the answer to line {it.reply.line.number}"))
            if it.reply.fault():
                text = "\n".join([*it.reply.heads, *explanation(it.reply)]) + "\n"
                return self.send(text.encode(), "text/plain; charset=utf-8", 422)
        self.send("\n".join(self.csv_of(it) for it in told if it.output).encode(), CSV)

    def csv_of(self, told: Told) -> str:
        """An answer as CSV, or its stale ranges."""
        style, told = self.server.views.dictionary.style(), self.server.views.parted(told)
        assert told.output
        if "ranges" in self.query:
            return "".join(line + "\n" for line in csv_ranges(told.reply, told.output, style))
        return csv_text(told.reply, told.output, style)


def query_of(text: str) -> dict[str, str]:
    """The words of a request by their names."""
    try:
        return dict(parse_qsl(text, max_num_fields=MOST_FIELDS))
    except ValueError:
        raise Refused(400, f"a request has at most {MOST_FIELDS} words behind ?") from None


def statements_in(body: bytes, session: str) -> list[Statement]:
    """The lines of a body that get a reply, as lines of this session and no other."""
    raws = body.split(b"\n")
    if len(raws) > MOST_LINES:
        raise Refused(413, f"a request has at most {MOST_LINES} lines")
    return [statement_in(raw, session, number) for number, raw in enumerate(raws, 1) if lines_of(raw)]


def statement_in(raw: bytes, session: str, number: int) -> Statement:
    """A line as one of this session, whose name may be written in front of it."""
    found = SESSION.match(raw.decode("latin-1"))
    if found and found[1] == session:
        return Statement(raw[: found.end()], raw[found.end() :], number)
    return Statement(f"{session}:".encode(), b" " + raw, number)


def stopping(stopped: Exception) -> tuple[int, str]:
    """The status of HTTP, and the words, for what stopped statements."""
    if isinstance(stopped, Ended):
        if stopped.was_put:
            return 502, f"{stopped}: the statement has perhaps taken effect; the position after the next start tells"
        return 503, f"{stopped}: the statement wasn't put in"
    status: dict[type[Exception], int] = {Lost: 409, GivenUp: 504, Unsent: 400}
    return status.get(type(stopped), 503), str(stopped)
