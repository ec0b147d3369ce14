"""Calls of other programs: how far they are, and that none outlives the build."""
import json
import subprocess
import sys
import time
from contextlib import contextmanager
from pathlib import Path
from types import FrameType
from typing import Any, Callable, Iterator, Mapping, Sequence

Words = Sequence[str | Path]


class Ending:
    """Ends the build by a signal, so that its folder is removed. One that comes while a call begins, or is ended, waits
    until that is done, so that no call is left."""

    def __init__(self) -> None:
        self.number, self.is_held = 0, False

    def handle(self, number: int, _frame: FrameType | None) -> None:
        self.number = number
        if not self.is_held:
            self.exit()

    def exit(self) -> None:
        if self.number:
            number, self.number = self.number, 0
            sys.exit(128 + number)

    @contextmanager
    def held(self) -> Iterator[None]:
        self.is_held = True
        try:
            yield
        finally:
            self.is_held = False
        self.exit()


ENDING = Ending()


class Progress:
    """Says on standard error how far the build is, if that is a terminal: one line, which the next one replaces. It
    keeps how long each step took, so that the next build can say it."""

    def __init__(self, kept: Path) -> None:
        self.kept = kept
        self.begun = time.monotonic()
        self.step_begun = self.begun
        self.is_shown = sys.stderr.isatty()
        self.name = self.said = ""
        self.shown: int | None = None
        self.took: dict[str, int] = {}
        self.last_time = read_times(kept)

    def step(self, name: str, what: str) -> None:
        self.end_step()
        self.name, self.step_begun, self.shown = name, time.monotonic(), None
        last = self.last_time.get(name)
        self.said = what if last is None else f"{what} (last time {last} s)"

    def end_step(self) -> None:
        if self.name:
            self.took[self.name] = round(time.monotonic() - self.step_begun)
        self.name = ""

    def tick(self) -> None:
        now = int(time.monotonic() - self.step_begun)
        if self.is_shown and now != self.shown:
            self.shown = now
            print(f"\r  {self.said}: {now} s\x1b[K", end="", file=sys.stderr, flush=True)

    def clear(self) -> None:
        if self.is_shown:
            print("\r\x1b[K", end="", file=sys.stderr, flush=True)

    def keep(self) -> None:
        """Keeps how long each step took, for the next build; a folder that can't be written keeps nothing."""
        self.end_step()
        self.took["all"] = round(time.monotonic() - self.begun)
        try:
            self.kept.write_text(json.dumps(self.took) + "\n")
        except OSError:
            pass


def read_times(kept: Path) -> dict[str, int]:
    """How long each step took last time; nothing if no build has kept it."""
    try:
        read = json.loads(kept.read_text())
        return {str(name): int(seconds) for name, seconds in read.items()}
    except (OSError, ValueError, TypeError, AttributeError):
        return {}


def never(_child: "subprocess.Popen[bytes]") -> bool:
    return False


def begin(running: list["subprocess.Popen[bytes]"], words: Words, how: Mapping[str, Any]) -> None:
    """Begins a call, which is then one of those that run."""
    whole: dict[str, Any] = {"stdin": subprocess.DEVNULL, "stdout": sys.stdout, "stderr": sys.stdout, **how}
    with ENDING.held():
        running.append(subprocess.Popen([str(word) for word in words], **whole))


def call(words: Words, progress: Progress, is_enough: Callable[["subprocess.Popen[bytes]"], bool] = never,
         **how: Any) -> int | None:
    """The status of a call, or None if it was ended since what it did was enough. It ends with this one."""
    running: list["subprocess.Popen[bytes]"] = []
    try:
        begin(running, words, how)
        child, = running
        while child.poll() is None:
            progress.tick()
            if is_enough(child):
                return None
            time.sleep(0.02)
        return child.returncode
    finally:
        end(running)


def call_all(calls: Sequence[Words], at_once: int, progress: Progress, **how: Any) -> bool:
    """Whether all calls end with status 0, so many at a time. They end with this one."""
    running: list["subprocess.Popen[bytes]"] = []
    waiting = list(calls)
    try:
        while waiting or running:
            while waiting and len(running) < at_once:
                begin(running, waiting.pop(0), how)
            progress.tick()
            time.sleep(0.02)
            if any(child.poll() for child in running):
                return False
            running = [child for child in running if child.returncode is None]
        return True
    finally:
        end(running)


def end(children: Sequence["subprocess.Popen[bytes]"]) -> None:
    with ENDING.held():
        for child in children:
            child.terminate()
        for child in children:
            child.wait()
