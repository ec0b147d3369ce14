"""Signals that end a command: what was answered stays answered, and the program isn't left behind.

Python runs the handler of a signal between two of its own steps. A signal that comes after the last step before a call
of the system, such as a wait for a key, is seen only once that call ends. `awakened` and `interrupted` let such a call
end at once.
"""
from __future__ import annotations

import os
import select
import signal
import threading
import time
from collections.abc import Iterator
from contextlib import contextmanager, suppress
from types import FrameType, TracebackType
from typing import Any

NUMBERS = (signal.SIGINT, signal.SIGTERM, signal.SIGHUP)
# Interrupts a call of the main thread. Nothing else sends it here, and a process that has no handler ignores it.
NUDGE = signal.SIGURG
SECONDS_BETWEEN_NUDGES = 0.01
# So many signals are taken at once.
MOST_NOTED = 4096
# A statement that is at work when a signal comes gets so long for its reply.
SECONDS_FOR_REPLY = 1.0


class Stop(Exception):
    """A signal asks for the end."""

    def __init__(self, number: int) -> None:
        super().__init__(f"signal {number}")
        self.number = number

    def status(self) -> int:
        """The exit status that tells of it, as in a shell."""
        return 128 + self.number


class Signals:
    """Between `with` and its end a signal is raised as `Stop`. While a reply is awaited (`is_asking`) it is noted
    instead, so that a reply that comes soon is printed; a second one ends the waiting at once."""

    def __init__(self) -> None:
        self.is_asking = False
        self.noted: int | None = None
        self.until = 0.0
        self.before: dict[int, Any] = {}

    def __enter__(self) -> Signals:
        self.before = {number: signal.signal(number, self.handle) for number in NUMBERS}
        return self

    def __exit__(
        self, kind: type[BaseException] | None, error: BaseException | None, trace: TracebackType | None
    ) -> None:
        for number, handler in self.before.items():
            signal.signal(number, handler)

    def handle(self, number: int, _frame: FrameType | None) -> None:
        """Notes a signal, or raises it."""
        if not self.is_asking:
            raise Stop(number)
        self.until = 0.0 if self.noted else time.monotonic() + SECONDS_FOR_REPLY
        self.noted = number

    def is_given_up(self) -> bool:
        """Whether a reply is awaited no longer."""
        return self.noted is not None and time.monotonic() > self.until

    def check(self) -> None:
        """Raises the signal that was noted, if one was."""
        self.is_asking = False
        if self.noted is not None:
            raise Stop(self.noted)


# ---- waits that miss no signal


@contextmanager
def awakened() -> Iterator[list[int]]:
    """Descriptors for a `select` beside others: one that can be read once a signal has come, and none in a thread that
    gets no signals. So a wait ends at once, also for a signal that came just before it."""
    if threading.current_thread() is not threading.main_thread():
        yield []
        return
    noted, note = os.pipe()
    for descriptor in (noted, note):
        os.set_blocking(descriptor, False)
    before = signal.set_wakeup_fd(note, warn_on_full_buffer=False)
    try:
        yield [noted]
    finally:
        signal.set_wakeup_fd(before)
        os.close(noted)
        os.close(note)


def take_noted(descriptors: list[int]) -> bytes:
    """The numbers of the signals that have come since, which wake nobody again."""
    found = b""
    for descriptor in descriptors:
        with suppress(BlockingIOError):
            found += os.read(descriptor, MOST_NOTED)
    return found


class Nudges:
    """A thread that hears of each signal, and interrupts the main thread until the signal's handler has run."""

    def __init__(self, wakes: list[int]) -> None:
        self.wakes = wakes
        self.main = threading.get_ident()
        self.has_run = False
        self.is_ended = False
        self.thread = threading.Thread(target=self.run, daemon=True)

    def handle(self, _number: int, _frame: FrameType | None) -> None:
        """Handlers run in the order of their numbers, so those of `NUMBERS` have run before this one. It takes no
        lock, since another nudge may interrupt it."""
        self.has_run = True

    def run(self) -> None:
        """Interrupts the main thread after each signal, until the end."""
        # If a second signal ends the main thread's wait for this one, the descriptors are closed already.
        with suppress(OSError):
            while not self.is_ended:
                select.select(self.wakes, [], [])
                if any(number in NUMBERS for number in take_noted(self.wakes)):
                    self.nudge()

    def nudge(self) -> None:
        """Interrupts the main thread until handlers have run. Most have before the first nudge."""
        self.has_run = False
        time.sleep(SECONDS_BETWEEN_NUDGES)
        while not self.is_ended and not self.has_run:
            signal.pthread_kill(self.main, NUDGE)
            time.sleep(SECONDS_BETWEEN_NUDGES)

    def end(self) -> None:
        """Ends the thread: a nudge wakes it, too."""
        self.is_ended = True
        signal.pthread_kill(self.main, NUDGE)
        self.thread.join()


@contextmanager
def interrupted() -> Iterator[None]:
    """Lets a signal end any wait of the main thread at once, also one that can't wait for a descriptor beside its own,
    such as that for a key."""
    with awakened() as wakes:
        nudges = Nudges(wakes)
        before = signal.signal(NUDGE, nudges.handle)
        nudges.thread.start()
        try:
            yield
        finally:
            nudges.end()
            signal.signal(NUDGE, before)


def line_typed(front: str) -> str:
    """What is typed behind a text at a terminal."""
    try:
        return input(front)
    except SystemError as error:
        # `input` runs handlers once more after one has raised. So a nudge makes it complain of what that one raised.
        raise error.__cause__ or error from None
