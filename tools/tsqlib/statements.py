"""Parts a script into the lines that get a reply, and lines into tokens, as `docs/SQL.md` has them."""
from __future__ import annotations

import re
from collections.abc import Iterable
from typing import NamedTuple

MOST_LINE = 65536
MOST_SESSIONS = 64
SESSION = re.compile(r"[ \t]*([a-z][a-z0-9_]{0,15}):")
# A quote that is doubled within quotes is one that belongs to the text. The SQL has no such texts, and tsq has.
TOKEN = re.compile(
    r"(?P<comment>--.*)|(?P<quoted>'(?:[^']|'')*')|(?P<word>[A-Za-z_][A-Za-z0-9_]*)|(?P<number>-?[0-9]+)"
    r"|(?P<symbol><>|!=|<=|>=|=>|[^ \t\r])",
    re.DOTALL,
)


class Token(NamedTuple):
    """A token: `quoted`, `word`, `number` or `symbol`; its text; and where it begins and ends."""

    kind: str
    text: str
    start: int
    end: int

    def is_symbol(self, text: str) -> bool:
        """Whether it is this symbol."""
        return self.kind == "symbol" and self.text == text

    def is_word(self, *words: str) -> bool:
        """Whether it is one of these words, in any case."""
        return self.kind == "word" and self.text.lower() in words

    def content(self) -> str:
        """The text within the quotes."""
        return self.text[1:-1].replace("''", "'")


def tokens_in(text: str, start: int = 0) -> list[Token]:
    """The tokens of a line from a place on, up to its comment. Two dashes within quotes begin none here."""
    found = []
    for match in TOKEN.finditer(text, start):
        kind = match.lastgroup or ""
        if kind == "comment":
            break
        found.append(Token(kind, match[0], match.start(), match.end()))
    return found


class Line(NamedTuple):
    """A line that gets a reply: its number from 1, its session if it has a good one, and its text."""

    number: int
    session: str | None
    text: str

    def front(self) -> int:
        """How long the session with its colon is."""
        found = SESSION.match(self.text) if self.session else None
        return found.end() if found else 0

    def tokens(self) -> list[str]:
        """The tokens of the statement, words in lower case, without a semicolon at the end."""
        found = [token.text.lower() for token in tokens_in(self.text, self.front())]
        return found[:-1] if found[-1:] == [";"] else found


def before_comment(raw: bytes) -> bytes:
    """The bytes of a line before its comment and before a CR that is a blank."""
    return raw.split(b"--", 1)[0].removesuffix(b"\r")


def line_of(raw: bytes, number: int) -> Line | None:
    """The line that these bytes are; nothing if it is blank, since it has no reply then."""
    front = before_comment(raw)
    if len(raw) <= MOST_LINE and not front.strip(b" \t"):
        return None
    text = front.decode("utf-8", "replace")
    found = SESSION.match(text) if front.isascii() and len(raw) <= MOST_LINE else None
    return Line(number, found[1] if found else None, text)


def lines_of(script: bytes) -> list[Line]:
    """The lines of a script's bytes that get a reply."""
    lines = (line_of(raw, number) for number, raw in enumerate(script.split(b"\n"), 1))
    return [line for line in lines if line]


def in_order_of_par(lines: Iterable[Line]) -> list[Line]:
    """The lines in the order in which `tsctl par` prints their replies."""
    lines = list(lines)
    sessions = list(dict.fromkeys(line.session for line in lines if line.session))[:MOST_SESSIONS]
    places: dict[str | None, int] = {session: place for place, session in enumerate(sessions, 2)}
    places |= {"setup": 1, "final": len(sessions) + 2}
    refused = {line.number for line in lines if line.session not in sessions}
    return sorted(lines, key=lambda line: 0 if line.number in refused else places[line.session])
