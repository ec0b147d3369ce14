"""What many threads of `tsq serve` share: turns in order, news, and answers that are kept for a position."""
from __future__ import annotations

import threading
import time
from collections import deque
from collections.abc import Callable
from concurrent.futures import Future
from typing import Any, TypeVar

MOST_WAITING = 256
MOST_CACHED = 64_000_000
# What an answer takes besides its bytes.
BESIDES = 1000
MOST_RECENT = 32_000_000

Read = TypeVar("Read")


class Stopped(Exception):
    """Why statements were put in no further. `told` are the replies to those before."""

    told: list[Any] = []


class Busy(Stopped):
    """Too many wait, or too many sessions hold something."""


class Turns:
    """Lets one in at a time, in the order in which they came: a lock of Python may be taken again and again by one."""

    def __init__(self) -> None:
        self.guard = threading.Lock()
        self.waiting: deque[threading.Lock] = deque()
        self.is_free = True

    def __enter__(self) -> None:
        with self.guard:
            if self.is_free:
                self.is_free = False
                return
            if len(self.waiting) == MOST_WAITING:
                raise Busy(f"{MOST_WAITING} requests wait already")
            mine = threading.Lock()
            mine.acquire()
            self.waiting.append(mine)
        mine.acquire()

    def __exit__(self, *_: object) -> None:
        with self.guard:
            if self.waiting:
                self.waiting.popleft().release()
            else:
                self.is_free = True


class News:
    """What is new, for those that wait for it. Who is slow misses what came between, and gets the latest."""

    def __init__(self) -> None:
        self.changed = threading.Condition()
        self.number = 0
        self.closed = False

    def tell(self) -> None:
        with self.changed:
            self.number += 1
            self.changed.notify_all()

    def close(self) -> None:
        with self.changed:
            self.closed = True
            self.changed.notify_all()

    def wait(self, seen: int, seconds: float) -> int:
        """The number of the latest, once it is another one than that, or the time is over."""
        with self.changed:
            self.changed.wait_for(lambda: self.number != seen or self.closed, seconds)
            return self.number


class Cache:
    """Answers at the present position, by what was asked. They are forgotten with the position, and if they are too
    many bytes. One that is being written is there already, for those that wait for it."""

    def __init__(self) -> None:
        self.guard = threading.Lock()
        self.found: dict[Any, Future[bytes]] = {}
        self.size = 0

    def clear(self) -> None:
        with self.guard:
            self.found = {}
            self.size = 0

    def get(self, key: Any) -> Future[bytes] | None:
        with self.guard:
            return self.found.get(key)

    def begin(self, key: Any) -> Future[bytes]:
        """A place for an answer of the present position."""
        with self.guard:
            future: Future[bytes] = Future()
            self.found[key] = future
            return future

    def finish(self, key: Any, future: Future[bytes], write: Callable[[], bytes]) -> bytes:
        """Writes an answer, and lets those have it that wait for it. One that fails isn't kept."""
        try:
            body = write()
        except BaseException as error:
            with self.guard:
                if self.found.get(key) is future:
                    del self.found[key]
            future.set_exception(error)
            raise
        with self.guard:
            if self.found.get(key) is future:
                self.size += len(body) + BESIDES
                if self.size > MOST_CACHED:
                    self.found, self.size = {}, 0
        future.set_result(body)
        return body


class Recent:
    """Answers that were given lately, for those to whom the position of a moment ago is enough. Each is kept as long as
    its maker says, so that many that ask cost as one."""

    def __init__(self) -> None:
        self.guard = threading.Lock()
        self.found: dict[Any, tuple[float, bytes]] = {}

    def get(self, key: Any) -> bytes | None:
        with self.guard:
            until, body = self.found.get(key, (0.0, b""))
            return body if time.monotonic() < until else None

    def keep(self, key: Any, body: bytes, seconds: float) -> None:
        """Keeps one if there is room, and forgets those whose time is over."""
        now = time.monotonic()
        with self.guard:
            self.found = {other: it for other, it in self.found.items() if now < it[0] and other != key}
            size = sum(len(it[1]) + BESIDES for it in self.found.values())
            if size + len(body) < MOST_RECENT:
                self.found[key] = now + seconds, body


def look(turns: Turns, cache: Cache, key: Any, read: Callable[[], Read], write: Callable[[Read], bytes]) -> bytes:
    """What `write` makes of what `read` gives at the present position. Both are done once, however many want it.

    `read` has the turn. `write` hasn't, so others are answered meanwhile, however long the answer is.
    """
    if (found := cache.get(key)) is not None:
        return found.result()
    with turns:
        found = cache.get(key)
        if found is None:
            value = read()
            future = cache.begin(key)
    if found is not None:
        return found.result()
    return cache.finish(key, future, lambda: write(value))
