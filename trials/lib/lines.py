"""Lines and tokens of a script, as docs/SQL.md describes them under "Lines and sessions"."""
import re
from collections.abc import Iterator
from typing import NamedTuple

from refusals import Refused

LONGEST_LINE, LONGEST_INPUT, MOST_SESSIONS = 65_536, 67_108_864, 64
LEAST_NUMBER, GREATEST_NUMBER = -(2**63), 2**63 - 1
LONGEST_WORD = 63
SESSION = re.compile(rb"[ \t]*([a-z][a-z0-9_]{0,15}):")
TOKEN = re.compile(
    r"(?P<word>[A-Za-z_][A-Za-z0-9_]*)|(?P<number>-?[0-9]+)|'(?P<quoted>[A-Za-z_][A-Za-z0-9_]*)'"
    r"|(?P<symbol>=>|<=|>=|<>|!=|[(),;.*=<>])"
)


class Line(NamedTuple):
    """A line that isn't blank: its session and its statement, or why it has none."""

    number: int
    session: str
    text: str
    start: int
    refused: Refused | None = None

    def refused_reply(self) -> str:
        """The reply to a line that has no good session."""
        assert self.refused
        head = self.session if self.refused.code == 23 else f"line {self.number}"
        return f"{head}: {self.refused.text()}"


class Token(NamedTuple):
    """A token with its first byte's place from 1. The end of a statement is a token of the kind `end`."""

    kind: str
    text: str
    place: int


def before_comment(raw: bytes) -> bytes:
    """What stands before the comment, without the CR that counts as a blank there."""
    comment = raw.find(b"--")
    body = raw if comment < 0 else raw[:comment]
    return body[:-1] if body.endswith(b"\r") else body


def read_line(number: int, raw: bytes, sessions: set[str]) -> Line | None:
    """A line of a script; nothing for a blank one. Its session comes to be."""
    if len(raw) > LONGEST_LINE:
        return Line(number, "", "", 0, Refused(1))
    body = before_comment(raw)
    if any(byte >= 128 for byte in body):
        return Line(number, "", "", 0, Refused(2))
    if not body.strip(b" \t"):
        return None
    named = SESSION.match(body)
    if not named:
        return Line(number, "", "", 0, Refused(3))
    session = named[1].decode()
    if session not in sessions and len(sessions) == MOST_SESSIONS:
        return Line(number, session, "", 0, Refused(23))
    sessions.add(session)
    return Line(number, session, body.decode("ascii"), named.end())


def read_lines(script: bytes) -> Iterator[Line]:
    """The lines of a script that aren't blank."""
    sessions: set[str] = set()
    for number, raw in enumerate(script[:LONGEST_INPUT].split(b"\n"), 1):
        line = read_line(number, raw, sessions)
        if line:
            yield line


class Tokens:
    """The tokens of a statement, from left to right."""

    def __init__(self, line: Line) -> None:
        self.text, self.at = line.text, line.start
        self.end = line.start
        self.next: Token | None = None

    def peek(self) -> Token:
        """The next token. It is refused where none begins there."""
        if self.next is None:
            self.next = self.read()
        return self.next

    def take(self) -> Token:
        """The next token, which then counts as read."""
        token = self.peek()
        self.next = None
        return token

    def read(self) -> Token:
        while self.at < len(self.text) and self.text[self.at] in " \t":
            self.at += 1
        place = self.at + 1
        if self.at == len(self.text):
            return Token("end", "", self.end + 1)
        found = TOKEN.match(self.text, self.at)
        if not found:
            raise Refused(4, place)
        kind = str(found.lastgroup)
        if kind in ("word", "quoted") and len(found[kind]) > LONGEST_WORD:
            raise Refused(4, place)
        self.at = self.end = found.end()
        return Token(kind, found[kind].lower(), place)
