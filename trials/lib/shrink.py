"""Makes a failing life smaller: steps and lines are left out, rows and tests too, and numbers are made small."""
import re
import time
from collections.abc import Callable, Iterator
from dataclasses import replace

from life import Life, Step

NUMBER = re.compile(rb"-?\d+")
ROW = re.compile(rb", \([^()]*\)")
WHERE = re.compile(rb" WHERE .*?(?= GROUP BY|$)| AND [^ ]+ [^ ]+ [^ ]+")


def with_step(life: Life, place: int, step: Step) -> Life:
    return life[:place] + (step,) + life[place + 1 :]


def fewer_steps(life: Life) -> Iterator[Life]:
    for place in reversed(range(len(life))):
        yield life[:place] + life[place + 1 :]
    for place, step in enumerate(life):
        if step.fault or step.how.startswith("crash"):
            yield with_step(life, place, replace(step, how=""))
        if step.word in ("json", "beside"):
            yield with_step(life, place, replace(step, word="run"))


def shorter(line: bytes) -> Iterator[bytes]:
    for pattern in (ROW, WHERE):
        for found in pattern.finditer(line):
            yield line[: found.start()] + line[found.end() :]
    for found in NUMBER.finditer(line):
        for number in (b"0", b"1", b"10"):
            if len(number) < len(found[0]) or (len(number) == len(found[0]) and number < found[0]):
                yield line[: found.start()] + number + line[found.end() :]


class Shrinking:
    """A life that fails, made smaller until there is no time left."""

    def __init__(self, life: Life, fails: Callable[[Life], bool], seconds: float) -> None:
        self.life, self.fails = life, fails
        self.until = time.monotonic() + seconds

    def has_time(self) -> bool:
        return time.monotonic() < self.until

    def takes(self, other: Life) -> bool:
        """Goes on with another life if that fails, too."""
        fails = self.has_time() and other != self.life and self.fails(other)
        if fails:
            self.life = other
        return fails

    def leave_out_steps(self) -> None:
        while any(self.takes(other) for other in fewer_steps(self.life)):
            pass

    def leave_out_lines(self) -> None:
        """Leaves out lines one behind the other: many at first, then fewer."""
        size = max((len(step.lines) for step in self.life), default=0)
        while size:
            for place in reversed(range(len(self.life))):
                self.leave_out_lines_of(place, size)
            size //= 2

    def leave_out_lines_of(self, place: int, size: int) -> None:
        start = 0
        while start < len(self.life[place].lines) and self.has_time():
            step = self.life[place]
            shorter_step = replace(step, lines=step.lines[:start] + step.lines[start + size :])
            if not self.takes(with_step(self.life, place, shorter_step)):
                start += size

    def shorten_lines(self) -> None:
        for place in reversed(range(len(self.life))):
            for number in range(len(self.life[place].lines)):
                while any(self.takes(other) for other in self.with_shorter_line(place, number)):
                    pass

    def with_shorter_line(self, place: int, number: int) -> Iterator[Life]:
        step = self.life[place]
        for line in shorter(step.lines[number]):
            lines = step.lines[:number] + (line,) + step.lines[number + 1 :]
            yield with_step(self.life, place, replace(step, lines=lines))


def shrink(life: Life, fails: Callable[[Life], bool], seconds: float = 30) -> Life:
    """The smallest life found in so many seconds that still fails."""
    it, before = Shrinking(life, fails, seconds), None
    while it.life != before and it.has_time():
        before = it.life
        it.leave_out_steps()
        it.leave_out_lines()
        it.shorten_lines()
    return it.life
