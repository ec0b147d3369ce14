"""Calls tsctl, and speaks with it.

`Program` is a `tsctl run` that is given a line at a time and whose replies come one by one:

    with Program(folder) as program:
        reply = program.ask(b"load: INSERT INTO m VALUES (1, 2)")
        if reply.fault():
            ...

`ask` gives the whole reply, since its length follows from its head. It raises `Ended` with the exit status if the
program ends before the reply is whole: the statement has perhaps taken effect then, and the position tells. Behind
the `with` the program has ended: by the end of its input, or, if it doesn't end by that soon, by a signal. A line
comes to the program whole or not at all, however this process ends, since a pipe takes it in one write.

`call` runs a whole script at once, such as those of `tsctl par`.
"""
from __future__ import annotations

import fcntl
import os
import select
import shutil
import signal
import subprocess
import sys
import tempfile
import time
from collections.abc import Callable, Iterator
from pathlib import Path
from types import TracebackType
from typing import IO, Any

from .messages import Trouble, say
from .replies import Keep, Reply, cells_of, ranges_of, reply_to
from .signals import awakened, take_noted
from .statements import MOST_LINE, line_of

TOP = Path(__file__).resolve().parents[2]
# A run takes so many bytes. A longer one ends with status 8, when the lines within it were run.
MOST_INPUT = 67_108_864
# More than the longest line, so that none waits half written.
PIPE_BYTES = 1 << 18
CHUNK = 1 << 16
SECONDS_BETWEEN_LOOKS = 0.2
SECONDS_TO_END = 5.0


class Ended(Exception):
    """The program has ended before a reply was whole. The statement that it was given has perhaps taken effect."""

    def __init__(self, status: int) -> None:
        super().__init__(f"tsctl has ended with status {status}")
        self.status = status


class Interrupted(Exception):
    """The reply wasn't awaited any longer."""


def tsctl() -> str:
    """The program, by its whole path, since it may be called in another folder: what TSCTL names, else `tsctl` on the
    PATH, else that of this repository."""
    named = os.environ.get("TSCTL")
    return os.path.abspath(shutil.which(named or "tsctl") or named or TOP / "bin" / "tsctl")


def as_of_shell(status: int) -> int:
    """The status of a program as a shell tells it: 128 and the number of the signal, if one has ended it."""
    return 128 - status if status < 0 else status


class Program:
    """A running `tsctl run`, which is given a line when it has answered the one before."""

    def __init__(self, folder: str | Path = ".", is_given_up: Callable[[], bool] = lambda: False) -> None:
        """Starts it in a folder. While a reply is awaited, `is_given_up` is asked a few times a second, and at each
        signal, whether it is still wanted; if it isn't, `ask` raises `Interrupted`, and the program can only be
        ended."""
        self.is_given_up = is_given_up
        # In a process group apart: Ctrl-C is for this process, which ends the program when it is time.
        how: dict[str, Any] = {"stdin": subprocess.PIPE, "stdout": subprocess.PIPE, "start_new_session": True}
        try:
            self.process = subprocess.Popen([tsctl(), "run"], cwd=folder, bufsize=0, **how)
        except OSError as error:
            raise Trouble(": ".join(filter(None, [error.filename, error.strerror]))) from None
        assert self.process.stdin and self.process.stdout
        self.input: IO[bytes] = self.process.stdin
        self.printed: IO[bytes] = self.process.stdout
        self.output = self.whole_lines()
        # How many lines and bytes it was given.
        self.count = 0
        self.given = 0
        try:
            fcntl.fcntl(self.input, fcntl.F_SETPIPE_SZ, PIPE_BYTES)
        except (AttributeError, OSError):
            pass

    def __enter__(self) -> Program:
        return self

    def __exit__(
        self, kind: type[BaseException] | None, error: BaseException | None, trace: TracebackType | None
    ) -> None:
        self.end()

    def read_some(self) -> bytes:
        """What it has printed, as soon as there is anything; nothing when its output has ended."""
        seconds = 0.0
        with awakened() as wakes:
            while self.printed not in select.select([self.printed, *wakes], [], [], seconds)[0]:
                take_noted(wakes)
                if self.is_given_up():
                    raise Interrupted
                seconds = SECONDS_BETWEEN_LOOKS
        return os.read(self.printed.fileno(), CHUNK)

    def whole_lines(self) -> Iterator[str]:
        """The lines of its output as they come; one that is cut off is none."""
        rest = b""
        while chunk := self.read_some():
            *whole, rest = (rest + chunk).split(b"\n")
            yield from (line.decode("ascii", "replace") for line in whole)

    def ask(
        self, raw: bytes, number: int | None = None, keep_rows: Keep = cells_of, keep_ranges: Keep = ranges_of
    ) -> Reply:
        """The reply to a line, which begins with its session and may not be blank. `number` is that of the line in a
        script, and stands in the reply. `keep_rows` and `keep_ranges` are those of `replies.reply_to`."""
        if b"\n" in raw:
            raise ValueError("a line has one end")
        self.count += 1
        line = line_of(raw, self.count)
        if line is None:
            raise ValueError("a blank line has no reply")
        self.give(raw[: MOST_LINE + 1] + b"\n")
        try:
            reply = reply_to(line, self.output, keep_rows, keep_ranges)
        except Trouble:
            reply = None
        if reply is None:
            raise Ended(self.end())
        return reply.numbered(self.count if number is None else number)

    def give(self, raw: bytes) -> None:
        """Writes a whole line."""
        self.given += len(raw)
        try:
            while raw:
                raw = raw[self.input.write(raw) :]
        except BrokenPipeError:
            raise Ended(self.end()) from None

    def has_room(self, size: int) -> bool:
        """Whether so many bytes more are within what a run takes."""
        return self.given + size <= MOST_INPUT

    def end(self) -> int:
        """Ends the input, and gives the exit status, as a shell tells it. A program that doesn't end by that soon is
        ended by a signal."""
        self.input.close()
        until = time.monotonic() + SECONDS_TO_END
        self.is_given_up = lambda: time.monotonic() > until
        try:
            # What is left is no whole reply; a program that writes must not wait for a reader.
            while not self.printed.closed and self.read_some():
                pass
            self.process.wait(SECONDS_TO_END)
        except (Interrupted, subprocess.TimeoutExpired, KeyboardInterrupt):
            self.kill()
        self.printed.close()
        return as_of_shell(self.process.wait())

    def kill(self) -> None:
        """Ends it at once, with all that it has started."""
        if self.process.poll() is None:
            os.killpg(self.process.pid, signal.SIGKILL)
            self.process.wait()


# ---- whole scripts


def call(words: list[str], script: bytes, folder: str | Path) -> tuple[int, bytes]:
    """The exit status and the output of tsctl with these words and this script, run in a folder."""
    try:
        # A file and no pipe, which would end in the middle of a line if this call is ended meanwhile.
        with tempfile.TemporaryFile() as given:
            given.write(script)
            given.seek(0)
            done = subprocess.run([tsctl(), *words], stdin=given, stdout=subprocess.PIPE, cwd=folder)
    except OSError as error:
        raise Trouble(": ".join(filter(None, [error.filename, error.strerror]))) from None
    tell_signal(done.returncode)
    return as_of_shell(done.returncode), done.stdout


def tell_signal(status: int) -> None:
    """Says which signal has ended the program, if one has: 128 and its number, or as a negative number."""
    number = -status if status < 0 else status - 128
    if number > 0:
        say(f"tsctl was ended by signal {number}")


# ---- files


def journal_in(folder: str | Path) -> bytes:
    """The bytes of the journal of a folder; none if there is no journal."""
    try:
        return (Path(folder) / "tsctl.journal").read_bytes()
    except OSError:
        return b""


def read_input() -> bytes:
    """The bytes of standard input."""
    try:
        return sys.stdin.buffer.read()
    except OSError as error:
        raise Trouble(f"standard input: {error.strerror}") from None


def read(name: str) -> bytes:
    """The bytes of a file."""
    try:
        return Path(name).read_bytes()
    except OSError as error:
        raise Trouble(f"{name}: {error.strerror}") from None
