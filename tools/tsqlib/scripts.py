"""Reads a script: the lines that tsctl is given, of statements that may go on over several lines of it.

A statement over several lines ends with `;`. A line without `;` is a statement of its own, as for tsctl, unless the
next line, which has no session then, goes on with it. What looks like the rest of a statement and can't be joined with
one is refused, since the front of it would be run alone: `DELETE FROM m` without its WHERE.
"""
from __future__ import annotations

import re
from collections.abc import Iterator
from typing import BinaryIO, NamedTuple

from .messages import Trouble
from .statements import MOST_LINE, SESSION, Token, before_comment, tokens_in

STATEMENTS = (
    "alter", "begin", "call", "commit", "create", "delete", "drop", "end", "explain", "insert", "refresh", "rollback",
    "select", "show", "start", "tick", "truncate", "update",
)  # fmt: skip
# Words and symbols that begin the rest of a statement, and those that end none.
RESTS = (
    "and", "as", "by", "from", "group", "having", "into", "is", "limit", "on", "or", "order", "set", "values", "where",
    "with",
)  # fmt: skip
REST_SYMBOLS = ("(", ")", ",", "=", "<", ">", "<=", ">=", "<>", "!=", "=>", ";")
OPEN_ENDS = (
    "and", "alter", "as", "by", "call", "create", "cut", "delete", "from", "group", "insert", "into", "is",
    "materialized", "no", "not", "select", "set", "table", "values", "view", "where", "with",
)  # fmt: skip
OPEN_SYMBOLS = ("(", ",", "=", "<", ">", "<=", ">=", "<>", "!=", "=>")
VALUES = re.compile(rb"\bvalues\b", re.IGNORECASE)
FIRST_WORD = re.compile(rb"[ \t]*([A-Za-z_]+)([A-Za-z0-9_]*[ \t]*:)?")


class Given(NamedTuple):
    """A line for tsctl, and the number of the script's line at which it begins."""

    number: int
    raw: bytes


# ---- what a line looks like


def has_word(tokens: list[Token], *words: str) -> bool:
    """Whether one of the tokens is one of these words."""
    return any(token.is_word(*words) for token in tokens)


def is_open(tokens: list[Token]) -> bool:
    """Whether a parenthesis isn't closed, or the last token can't be the last one of a statement."""
    depth = sum(token.is_symbol("(") - token.is_symbol(")") for token in tokens)
    last = tokens[-1]
    return depth > 0 or last.is_word(*OPEN_ENDS) or last.kind == "symbol" and last.text in OPEN_SYMBOLS


def lacks_part(tokens: list[Token]) -> bool:
    """Whether a part is missing without which its kind of statement is none."""
    first, second = tokens[0], tokens[1] if len(tokens) > 1 else tokens[0]
    if first.is_word("insert"):
        return not has_word(tokens, "values")
    if first.is_word("create"):
        is_table = second.is_word("table")
        return not any(token.is_symbol("(") for token in tokens) if is_table else not has_word(tokens, "group")
    if first.is_word("delete"):
        return not has_word(tokens, "from")
    if first.is_word("alter"):
        return not has_word(tokens, "set")
    if not first.is_word("select"):
        return False
    if second.is_symbol("*"):
        return not has_word(tokens, "from")
    return second.is_word("time_bucket", "calendar_bucket") and not has_word(tokens, "group")


def is_whole(text: bytes) -> bool:
    """Whether a statement, without its session, may end here. A long INSERT isn't taken apart for it."""
    found = FIRST_WORD.match(text)
    if found and found[1].lower() == b"insert":
        return bool(VALUES.search(text)) and text.rstrip(b" \t;").endswith(b")")
    tokens = tokens_in(text.decode("latin-1"))
    return bool(tokens) and not is_open(tokens) and not lacks_part(tokens)


def removes_rows(text: bytes) -> bool:
    """Whether a statement, without its session, is a DELETE or a drop_chunks."""
    tokens = tokens_in(text[:200].decode("latin-1"))
    return bool(tokens) and tokens[0].is_word("delete") or len(tokens) > 1 and tokens[1].is_word("drop_chunks")


def begins_statement(text: bytes) -> bool:
    """Whether the first word is one by which statements begin, or is meant for a session."""
    found = FIRST_WORD.match(text)
    return found is not None and (found[2] is not None or found[1].lower().decode() in STATEMENTS)


def looks_like_rest(text: bytes) -> bool:
    """Whether a line without a session can hardly be anything else than the rest of a statement."""
    tokens = tokens_in(text[:200].decode("latin-1"))
    if not tokens:
        return False
    first, second = tokens[0], tokens[min(1, len(tokens) - 1)]
    if first.is_word("no"):
        return second.is_word("data")
    return first.is_word(*RESTS) or first.kind == "symbol" and first.text in REST_SYMBOLS


def before_end(raw: bytes) -> bytes:
    """The bytes of a line before its comment, which doesn't begin in quotes, and before a CR and blanks at its end."""
    if b"--" not in raw:
        return raw.rstrip(b" \t\r")
    if b"'" not in raw:
        return before_comment(raw).rstrip(b" \t\r")
    tokens = tokens_in(raw.decode("latin-1"))
    return raw[: tokens[-1].end] if tokens else b""


# ---- statements over lines


class Script:
    """Takes the lines of a script, and gives those for tsctl.

    One that comes bit by bit (`is_stream`) is given on as soon as it can be: a whole line without `;` at once, unless
    it removes rows. All others are held back until the next line shows that it doesn't go on.
    """

    def __init__(self, is_stream: bool = False) -> None:
        self.is_stream = is_stream
        self.held: list[Given] = []

    def add(self, number: int, raw: bytes) -> Iterator[Given]:
        """Takes a line. A script that can't be run as it is meant ends as Trouble."""
        text = before_end(raw)
        if not text.strip(b" \t"):
            return
        session = SESSION.match(text.decode("latin-1"))
        if self.held and not session and self.goes_on(text):
            self.held.append(Given(number, text))
            yield from self.joined(text)
            return
        yield from self.flush()
        if not session:
            self.check_stray(number, text)
        if not session or text.endswith(b";") or len(raw) > MOST_LINE or not text.isascii():
            yield Given(number, raw)
            return
        self.held = [Given(number, raw)]
        rest = text[session.end() :]
        if self.is_stream and is_whole(rest) and not removes_rows(rest):
            yield from self.flush()

    def goes_on(self, text: bytes) -> bool:
        """Whether a line without a session belongs to the statement that is held back."""
        return not begins_statement(text) or not is_whole(self.statement())

    def statement(self) -> bytes:
        """What is held back, as one line without its session."""
        text = b" ".join(before_end(line.raw).strip(b" \t") for line in self.held)
        found = SESSION.match(text.decode("latin-1"))
        return text[found.end() if found else 0 :]

    def joined(self, text: bytes) -> Iterator[Given]:
        """The lines that are held back as one, if this last one ends the statement."""
        semicolons = [token.end for token in tokens_in(text.decode("latin-1")) if token.is_symbol(";")]
        if not semicolons:
            return
        if semicolons != [len(text)]:
            raise Trouble(f"line {self.held[-1].number}: a statement over several lines ends with its `;` and its line")
        raw = b" ".join(before_end(line.raw).strip(b" \t") for line in self.held)
        number = self.held[0].number
        self.held = []
        yield Given(number, raw)

    def flush(self) -> Iterator[Given]:
        """What is held back, which the next line doesn't go on."""
        if len(self.held) > 1:
            lines = f"lines {self.held[0].number} to {self.held[-1].number}"
            raise Trouble(f"{lines} look like one statement, and no `;` ends it; {self.outcome()}")
        yield from self.held
        self.held = []

    def check_stray(self, number: int, text: bytes) -> None:
        """Refuses a line without a session that looks like the rest of a statement."""
        if looks_like_rest(text):
            raise Trouble(f"line {number} looks like the rest of a statement that has ended before; {self.outcome()}")

    def outcome(self) -> str:
        """What has been run, in words."""
        return "what stands before it has been run" if self.is_stream else "nothing was run"


def lines_from(stream: BinaryIO) -> Iterator[bytes]:
    """The lines of a stream as they come, of which one that is too long is cut to a length at which it is refused."""
    while raw := stream.readline(MOST_LINE + 2):
        rest = raw
        while not rest.endswith(b"\n") and (rest := stream.readline(MOST_LINE)):
            pass
        yield raw.removesuffix(b"\n")[: MOST_LINE + 1]


def given_of(script: bytes) -> list[Given]:
    """The lines for tsctl of a whole script."""
    reader = Script()
    given = [line for number, raw in enumerate(script.split(b"\n"), 1) for line in reader.add(number, raw)]
    return given + list(reader.flush())


def given_from(stream: BinaryIO) -> Iterator[Given]:
    """The lines for tsctl of a script that comes bit by bit."""
    reader = Script(is_stream=True)
    for number, raw in enumerate(lines_from(stream), 1):
        yield from reader.add(number, raw)
    yield from reader.flush()
