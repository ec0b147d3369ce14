"""Parts what tsctl printed into the replies to the lines of a script."""
from __future__ import annotations

import re
from collections.abc import Callable, Iterable, Iterator
from typing import Any, NamedTuple

from .messages import Trouble
from .statements import Line, lines_of

ANSWER = re.compile(r"ANSWER @\d+(?: queue \d+)? rows (\d+) stale (\d+)")
POSITION = re.compile(r"[A-Z ]+?(?: \d+)? @(\d+)|CUT (\d+)")
FAULT = re.compile(r"FAULT (E\d\d) (\w+)(?: at (\d+))?")
TICK = re.compile(r"TICK -?\d+ due (\d+)")
STALE = re.compile(r"stale (min|-?\d+)\.\.(-?\d+)")

# Takes all rows, or all stale ranges, of an answer, and gives those that are kept.
Keep = Callable[[Iterable[str]], list[Any]]
Range = tuple[int | None, int]


class Reply(NamedTuple):
    """The reply to a line: its lines that begin with the session, the cells of its rows, and its stale ranges.

    A stale range is a pair of its bounds, where the first one is None for `min`. Those in which `drop_chunks` removed
    rows are among them until they are parted from the others into `dropped`. Of a tick the lines of the statements that
    it ran are among its own.
    """

    line: Line
    heads: list[str]
    rows: list[Any] = []
    stale: list[Any] = []
    dropped: list[Any] = []

    def texts(self) -> list[str]:
        """The heads without the session."""
        return [head.split(": ", 1)[1] for head in self.heads]

    def is_answer(self) -> bool:
        """Whether it has rows, or could have."""
        return self.texts()[0].startswith("ANSWER ")

    def fault(self) -> tuple[str, str, str | None] | None:
        """The number, the word and the place of the first refusal, if there is one."""
        found = next(filter(None, map(FAULT.match, self.texts())), None)
        return (found[1], found[2], found[3]) if found else None

    def position(self) -> int | None:
        """The greatest position that it tells of, if it tells of one: that of its event, or how many there were."""
        found = filter(None, map(POSITION.match, self.texts()))
        return max((int(it[1] or it[2]) for it in found), default=None)

    def numbered(self, number: int) -> Reply:
        """The same reply to a line of this number."""
        if number == self.line.number:
            return self
        old, new = f"line {self.line.number}: ", f"line {number}: "
        heads = [new + head.removeprefix(old) if head.startswith(old) else head for head in self.heads]
        return self._replace(line=self.line._replace(number=number), heads=heads)


def goes_on(line: Line, text: str) -> bool:
    """Whether another line of the reply follows one that begins with the session."""
    if text.startswith("VIEW "):
        return line.tokens()[-3:] != ["with", "no", "data"]
    return text.startswith("CUT ") and line.tokens()[:1] != ["refresh"]


def heads_of(line: Line, output: Iterator[str]) -> list[str]:
    """The lines of a reply that begin with the session, and none where the output has ended."""
    heads, left = [], 1
    for head in output:
        if not head.startswith((f"{line.session}: ", f"line {line.number}: ")):
            raise Trouble(f"line {line.number} of the script has another reply: {head}")
        heads.append(head)
        text = head.split(": ", 1)[1]
        if ticked := TICK.match(text):
            left += int(ticked[1])
        left -= not goes_on(line, text)
        if not left:
            break
    return heads


def replies_in(output: bytes, script: bytes) -> Iterator[Reply]:
    """The replies to the lines of a script, from the bytes of an output."""
    return replies_of(lines_of(script), output.decode("ascii", "replace").split("\n")[:-1])


def range_of(text: str) -> Range:
    """The bounds of a line `stale lo..hi`."""
    found = STALE.fullmatch(text)
    if not found:
        raise Trouble(f"no stale range: {text}")
    low, high = found.groups()
    return None if low == "min" else int(low), int(high)


def cells_of(texts: Iterable[str]) -> list[Any]:
    """The cells of each row."""
    return [text.split("|") for text in texts]


def ranges_of(texts: Iterable[str]) -> list[Any]:
    """The bounds of each stale range."""
    return [range_of(text) for text in texts]


def taken(line: Line, output: Iterator[str], count: int) -> Iterator[str]:
    """So many lines of the reply to a line, which must be there."""
    for _ in range(count):
        text = next(output, None)
        if text is None:
            raise Trouble(f"the answer to line {line.number} of the script is cut off")
        yield text


def reply_to(
    line: Line, output: Iterator[str], keep_rows: Keep = cells_of, keep_ranges: Keep = ranges_of
) -> Reply | None:
    """The reply to a line, from an iterator over the lines of an output of which not one more is taken; nothing if
    it has ended. The rows and the stale ranges go through these functions, which take all and may keep few."""
    heads = heads_of(line, output)
    if not heads:
        return None
    found = ANSWER.match(heads[0].split(": ", 1)[1])
    rows, stale = map(int, found.groups()) if found else (0, 0)
    kept = keep_rows(taken(line, output, rows))
    return Reply(line, heads, kept, keep_ranges(taken(line, output, stale)))


def replies_of(lines: Iterable[Line], output: Iterable[str]) -> Iterator[Reply]:
    """The replies to these lines, in order, from the lines of an output. It may end early."""
    output = iter(output)
    for line in lines:
        reply = reply_to(line, output)
        if reply is None:
            return
        yield reply
    for more in output:
        raise Trouble(f"there are more replies than the script has lines: {more}")
