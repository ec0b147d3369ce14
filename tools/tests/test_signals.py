"""Waits that miss no signal, also one that comes between the last look for it and the wait."""
from __future__ import annotations

import os
import select
import signal
import threading
import time
import unittest
from types import FrameType
from unittest import mock

from tsqlib.signals import NUDGE, Stop, awakened, interrupted, line_typed, take_noted

ROUNDS = 200
# A wait that lasts so long has missed its signal.
SECONDS = 10.0
MOST_MISSES = 3


class AwakenedTest(unittest.TestCase):
    def setUp(self) -> None:
        self.count = 0
        before = signal.signal(signal.SIGTERM, self.note)
        self.addCleanup(signal.signal, signal.SIGTERM, before)

    def note(self, _number: int, _frame: FrameType | None) -> None:
        self.count += 1

    def test_a_signal_after_the_look_and_before_the_wait(self) -> None:
        misses = 0
        for number in range(ROUNDS):
            with awakened() as wakes:
                self.assertEqual(self.count, number)
                os.kill(os.getpid(), signal.SIGTERM)
                misses += not select.select(wakes, [], [], SECONDS)[0]
                self.assertEqual(take_noted(wakes), bytes([signal.SIGTERM]))
                self.assertFalse(select.select(wakes, [], [], 0)[0], "it wakes once")
        self.assertEqual((misses, self.count), (0, ROUNDS))

    def test_what_was_set_before_is_set_again(self) -> None:
        with awakened() as outer:
            with awakened() as inner:
                self.assertNotEqual(inner, outer)
            os.kill(os.getpid(), signal.SIGTERM)
            self.assertEqual(take_noted(outer), bytes([signal.SIGTERM]))
        self.assertEqual(signal.set_wakeup_fd(-1), -1)

    def test_another_thread_has_none(self) -> None:
        found: list[list[int]] = []

        def enter() -> None:
            with awakened() as wakes:
                found.append(wakes)

        thread = threading.Thread(target=enter)
        thread.start()
        thread.join()
        self.assertEqual(found, [[]])


class InterruptedTest(unittest.TestCase):
    def setUp(self) -> None:
        before = signal.signal(signal.SIGTERM, self.stop)
        self.addCleanup(signal.signal, signal.SIGTERM, before)

    def stop(self, number: int, _frame: FrameType | None) -> None:
        raise Stop(number)

    def wait_is_ended(self) -> bool:
        """Whether a signal ends a wait of the main thread that the system doesn't interrupt, since another thread takes
        the signal."""
        out, into = os.pipe()

        def send() -> None:
            time.sleep(0.005)
            signal.raise_signal(signal.SIGTERM)
            # What ends a wait that has missed it.
            if not ended.wait(SECONDS):
                os.write(into, b"\n")

        ended = threading.Event()
        thread = threading.Thread(target=send)
        begun = time.monotonic()
        try:
            thread.start()
            os.read(out, 1)
            time.sleep(SECONDS)
        except Stop:
            return time.monotonic() - begun < SECONDS
        finally:
            ended.set()
            thread.join()
            os.close(out)
            os.close(into)
        return False

    def test_a_wait_that_the_system_does_not_interrupt(self) -> None:
        misses = 0
        with interrupted():
            for _ in range(ROUNDS):
                misses += not self.wait_is_ended()
                if misses > MOST_MISSES:
                    break
        self.assertEqual(misses, 0)

    def test_nothing_is_left(self) -> None:
        before, threads = signal.getsignal(NUDGE), threading.active_count()
        for _ in range(ROUNDS):
            with interrupted():
                pass
        self.assertEqual((signal.getsignal(NUDGE), threading.active_count()), (before, threads))

    def test_what_a_handler_has_raised_is_what_comes(self) -> None:
        error = SystemError("handle returned a result with an exception set")
        error.__cause__ = KeyboardInterrupt()
        with mock.patch("builtins.input", side_effect=error), self.assertRaises(KeyboardInterrupt):
            line_typed("tsq> ")


if __name__ == "__main__":
    unittest.main()
