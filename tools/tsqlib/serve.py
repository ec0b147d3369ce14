"""`tsq serve`: one tsctl that many share, over HTTP, with a page that shows its aggregates."""
from __future__ import annotations

import os
import signal
import subprocess
import sys
import threading
from argparse import ArgumentTypeError, Namespace
from collections.abc import Callable
from contextlib import ExitStack
from typing import Any, BinaryIO

from . import programs
from .access import Access, access_of
from .copies import cleaned_up
from .dictionary import Dictionary
from .follower import Follower
from .following import Following
from .holder import require_free
from .messages import Trouble, say
from .metrics import Metrics
from .options import Commands, folder_option, scale_option, times_option
from .policies import Policies, policies_in
from .replies import Reply
from .samples import FirstRows
from .scripts import given_from
from .seats import Owner
from .sessions import Ended, Sessions, Statement, Unsent
from .statements import SESSION
from .turns import Stopped
from .views import Views
from .watch import seconds
from .web import Server

ENDINGS = {
    0: "it ended", 1: "it ended", 3: "read fault", 4: "write fault", 5: "disk fault", 6: "journal damaged",
    7: "out of memory", 8: "input too long", 70: "there is no program to run",
}  # fmt: skip
DISK_FAULT = 5
SECONDS_TO_WRITE = 3
SECONDS_OF_SILENCE = 4
SECONDS_OF_WHY = 60


# ---- options


def port(text: str) -> int:
    """A port of TCP, or 0 for one that is free."""
    if not text.isdecimal() or len(text) > 5 or int(text) > 65535:
        raise ArgumentTypeError(f"{text}: wanted is a number from 0 to 65535")
    return int(text)


def most_rows(text: str) -> int:
    """How many rows."""
    if not text.isdecimal() or not 1 <= len(text) <= 7 or int(text) == 0:
        raise ArgumentTypeError(f"{text}: wanted is a number from 1 to 9999999")
    return int(text)


def add_command(commands: Commands) -> None:
    """`tsq serve`."""
    parser = commands.add_parser("serve", help="share one tsctl over HTTP on this machine, with a live page")
    parser.add_argument("--port", type=port, default=8086, metavar="N", help="of 127.0.0.1; 8086 without it")
    parser.add_argument("--read-only", action="store_true", help="no statement may write, and no input is read")
    follow = "read beside another process that writes in the folder; implies --read-only"
    parser.add_argument("--follow", action="store_true", help=follow)
    parser.add_argument("--private", action="store_true", help="reading needs the token, too")
    token = "the file of the token, which is made if it doesn't exist; without it TSQ_TOKEN, or a new one"
    parser.add_argument("--token-file", metavar="FILE", help=token)
    parser.add_argument("--policies", metavar="FILE", help="add these policies, and run them by wall time")
    tick = "between two runs of policies; 60 without it"
    parser.add_argument("--tick", type=seconds, default=60.0, metavar="SECONDS", help=tick)
    rows = "how many rows of an answer are given at most; 10000 without it"
    parser.add_argument("--rows", type=most_rows, default=10000, metavar="N", help=rows)
    longest = "how long a question may run before it is given up; 60 without it"
    parser.add_argument("--longest", type=seconds, default=60.0, metavar="SECONDS", help=longest)
    idle = "after which the open block of a client that isn't heard of is rolled back; 600 without it"
    parser.add_argument("--idle", type=seconds, default=600.0, metavar="SECONDS", help=idle)
    times_option(parser, "times are seconds, milliseconds or microseconds since 1970, and are shown as dates")
    scale_option(parser, "divide a column by 10 so many times, such as mean=2; may be given several times")
    folder_option(parser)
    parser.set_defaults(call=serve)


# ---- the state


def ending(status: int) -> str:
    """How the program ended, in words."""
    return ENDINGS.get(status) or (f"signal {status - 128}" if status > 128 else f"status {status}")


def why(folder: str | os.PathLike[str]) -> str:
    """What `tsctl why` says of a folder."""
    try:
        how: dict[str, Any] = {"stdin": subprocess.DEVNULL, "stdout": subprocess.PIPE, "stderr": subprocess.STDOUT}
        done = subprocess.run([programs.TOP / "tools" / "why"], cwd=folder, timeout=SECONDS_OF_WHY, **how)
        return str(done.stdout.decode("utf-8", "replace").strip())
    except (OSError, subprocess.TimeoutExpired):
        return ""


class State:
    """The state of the server, as `/state` and the page have it."""

    def __init__(self, folder: str, views: Views, access: Access, policies: Policies | None) -> None:
        self.folder = os.path.abspath(folder)
        self.sessions = views.sessions
        self.dictionary = views.dictionary
        self.access = access
        self.policies = policies
        self.guard = threading.Lock()
        # The number of an ending, and what `tsctl why` says of it.
        self.known: tuple[int, str] = (0, "")
        self.asking: threading.Thread | None = None
        self.sessions.before_start = self.wait

    def __call__(self) -> dict[str, Any]:
        """As an object of JSON."""
        sessions, status = self.sessions, self.sessions.status
        state: dict[str, Any] = {
            "position": sessions.position, "statements": sessions.statements, "running": sessions.program is not None,
            "aggregates": len(sessions.schema.sources), "folder": self.folder, "unit": self.dictionary.unit(),
            "read_only": self.access.is_read_only, "private": self.access.is_private,
        }  # fmt: skip
        if isinstance(sessions, Following):
            state |= {"follows": True, "trouble": sessions.trouble, "written": int(sessions.follower.written())}
            # While the program is exchanged for one over a longer copy, the earlier answers stay good.
            state["running"] = status is None or status <= 1
        if self.policies:
            state["policies"] = self.policies.told()
        if sessions.program is None and status is not None and not state["running"]:
            state |= {"status": status, "ending": ending(status), "why": self.why(status)}
        return state

    def why(self, status: int) -> str:
        """What `tsctl why` says of a disk fault. Until it is known this is empty, so nobody waits to hear that there is
        a fault; then it is news."""
        if status != DISK_FAULT:
            return ""
        endings = self.sessions.endings
        with self.guard:
            if self.known[0] != endings:
                self.known = endings, ""
                self.asking = threading.Thread(target=self.find_why, args=(endings,), daemon=True)
                self.asking.start()
            return self.known[1]

    def last_why(self, status: int) -> str:
        """The same at the end, when it may take its time."""
        if status != DISK_FAULT:
            return ""
        self.wait()
        with self.guard:
            endings, text = self.known
        return text if endings == self.sessions.endings else why(self.sessions.folder)

    def wait(self) -> None:
        """Waits for what is asked: it tries the lock of the journal itself, which a new program needs."""
        with self.guard:
            asking = self.asking
        if asking:
            asking.join(SECONDS_OF_WHY)

    def find_why(self, endings: int) -> None:
        """Asks for it."""
        text = why(self.sessions.folder)
        with self.guard:
            if self.known[0] == endings:
                self.known = endings, text
        self.sessions.news.tell()


# ---- standard input


def feed(sessions: Sessions, stream: BinaryIO, most_rows: int) -> None:
    """Puts the statements of standard input in, and prints their replies, as `tsq run` reads and `tsctl run` prints
    them."""
    number = 0
    try:
        for number, raw in given_from(stream):
            statement, session = statement_of(raw, number)
            keep = FirstRows(most_rows)
            try:
                (told,) = sessions.ask(Owner("input", session), [statement], lambda: keep)
                write_reply(told.reply, keep)
            except Unsent as unsent:
                say(str(unsent))
    except Stopped as stopped:
        if not sessions.is_ending:
            say(f"standard input is read no further, since {stopped}; line {number} has no reply")
        return
    except (Trouble, OSError, ValueError) as trouble:
        say(f"standard input is read no further: {trouble}")
        return
    if not sessions.is_ending:
        say("standard input has ended; Ctrl-C ends the rest")


def statement_of(raw: bytes, number: int) -> tuple[Statement, str]:
    """A line with its session's name apart, and the session; all of the line if it has no good one."""
    found = SESSION.match(raw.decode("latin-1"))
    end = found.end() if found else 0
    return Statement(raw[:end], raw[end:], number), found[1] if found else ""


def write_reply(reply: Reply, keep: FirstRows) -> None:
    """A reply on standard output."""
    rows = ["|".join(row) for row in reply.rows]
    stale = [f"stale {'min' if low is None else low}..{high}" for low, high in reply.stale]
    print(*reply.heads, *rows, *stale, sep="\n", flush=True)
    if keep.count > len(rows):
        say(f"line {reply.line.number} has {keep.count} rows, of which {len(rows)} are printed (--rows)")


# ---- all of it


def policies_of(options: Namespace, sessions: Sessions, unit: str | None) -> Policies | None:
    """The policies that the options ask for."""
    if not options.policies:
        return None
    if options.follow or options.read_only:
        raise Trouble("--policies writes, and goes with neither --follow nor --read-only")
    if unit is None:
        raise Trouble("--policies needs the unit of times: --times s, ms or us")
    return Policies(sessions, policies_in(programs.read(options.policies), options.policies), unit, options.tick)


def sessions_of(options: Namespace, folder: str, ends: ExitStack) -> Sessions:
    """The sessions over the folder, or over a copy that follows it."""
    if options.follow:
        follower = ends.enter_context(Follower(folder))
        return Following(follower, options.longest)
    require_free(folder, "`tsq serve --follow` reads beside it")
    return Sessions(folder, options.longest)


def listening(number: int, views: Views, access: Access, state: State, measured: Metrics) -> Server:
    """The server, which listens."""
    try:
        return Server(number, views, access, state, measured)
    except OSError as error:
        raise Trouble(f"port {number}: {error.strerror}") from None


def announce(server: Server, access: Access, options: Namespace) -> None:
    """Says where the page is. What is after # goes to no server, and into no log."""
    token = f"#token={access.token}" * (access.token is not None and not options.token_file)
    say(f"http://127.0.0.1:{server.server_port}/{token}")


def end(server: Server, sessions: Sessions, state: State) -> int:
    """Lets what runs come to its reply, and gives the exit status."""
    server.ended.set()
    status = sessions.end()
    server.shutdown()
    server.requests.wait(SECONDS_TO_WRITE)
    server.server_close()
    if status > 1:
        say(f"tsctl has ended with status {status}: {ending(status)}")
        for line in state.last_why(status).splitlines():
            say(line)
        return status
    say(f"ended at position {sessions.position}")
    return 0


def begin_threads(server: Server, sessions: Sessions, policies: Policies | None, idle: float) -> None:
    """Begins what is at work beside the requests."""
    works: list[tuple[Callable[..., object], tuple[Any, ...]]] = [(server.serve_forever, ())]
    works.append((server.deadlines.watch, (server.ended,)))
    works.append((sessions.watch_idle, (idle, server.ended)))
    if policies:
        works.append((policies.run, (server.ended,)))
    if isinstance(sessions, Following):
        works.append((sessions.follow, (server.ended,)))
    for call, words in works:
        threading.Thread(target=call, args=words, daemon=True).start()


def begin_input(sessions: Sessions, most: int) -> None:
    """Begins to read standard input, if that is something else than a terminal or nothing at all."""
    is_nothing = os.fstat(sys.stdin.fileno()).st_rdev == os.stat(os.devnull).st_rdev
    if not sys.stdin.isatty() and not is_nothing:
        # By a reader of its own: that of Python can't be closed at the end while a thread waits in it.
        lines = open(sys.stdin.fileno(), "rb", closefd=False)
        threading.Thread(target=feed, args=(sessions, lines, most), daemon=True).start()


def serve(options: Namespace) -> int:
    """Serves until a signal comes; gives the exit status."""
    ends = ExitStack()
    try:
        ends.enter_context(cleaned_up())
        return serve_within(options, ends)
    finally:
        ends.close()


def serve_within(options: Namespace, ends: ExitStack) -> int:
    """The same, with what is cleaned up at the end."""
    folder = options.folder or "."
    access = access_of(options.read_only or options.follow, options.private, options.token_file)
    dictionary = Dictionary(folder, options.times, dict(options.scale))
    sessions = sessions_of(options, folder, ends)
    policies = policies_of(options, sessions, dictionary.unit())
    views = Views(sessions, dictionary, options.rows)
    sessions.in_numbers = dictionary.in_numbers
    state = State(folder, views, access, policies)
    measured = Metrics(views, policies)
    server = listening(options.port, views, access, state, measured)
    late = threading.Timer(
        SECONDS_OF_SILENCE, say, ["tsctl starts; a long journal, or a program to be built, takes its time"]
    )
    late.daemon = True
    late.start()
    try:
        sessions.start()
    except Ended as ended:
        return ended.status
    except Unsent as unsent:
        raise Trouble(f"{options.policies}: {unsent}") from None
    finally:
        late.cancel()
    # Before this a signal ends it as any program, and the input of tsctl with it.
    stop = threading.Event()
    for number in (signal.SIGINT, signal.SIGTERM, signal.SIGHUP):
        signal.signal(number, lambda *_: stop.set())
    begin_threads(server, sessions, policies, options.idle)
    announce(server, access, options)
    if not access.is_read_only:
        begin_input(sessions, options.rows)
    stop.wait()
    return end(server, sessions, state)
