"""Limits of connections to `tsq serve`: how long a request may take to come and an answer to go, and how many are at
work."""
from __future__ import annotations

import socket
import threading
import time

# A request must have come, an answer must have gone, within so many seconds.
SECONDS = 20


class Deadlines:
    """Closes connections whose requests take too long to come, a byte now and then included."""

    def __init__(self) -> None:
        self.guard = threading.Lock()
        self.ends: dict[socket.socket, float] = {}

    def set(self, connection: socket.socket) -> None:
        with self.guard:
            self.ends[connection] = time.monotonic() + SECONDS

    def clear(self, connection: socket.socket) -> None:
        with self.guard:
            self.ends.pop(connection, None)

    def watch(self, ended: threading.Event) -> None:
        """Looks once a second, until this is set."""
        while not ended.wait(1):
            with self.guard:
                late = [it for it, end in self.ends.items() if end < time.monotonic()]
            for connection in late:
                self.clear(connection)
                try:
                    connection.shutdown(socket.SHUT_RDWR)
                except OSError:
                    pass


class Count:
    """How many are within, for one that waits until there is none."""

    def __init__(self) -> None:
        self.changed = threading.Condition()
        self.number = 0

    def __enter__(self) -> None:
        with self.changed:
            self.number += 1

    def __exit__(self, *_: object) -> None:
        with self.changed:
            self.number -= 1
            self.changed.notify_all()

    def wait(self, seconds: float) -> None:
        with self.changed:
            self.changed.wait_for(lambda: self.number == 0, seconds)
