"""Explains a refusal: the line, a caret under the place, and what the number means, or what to write instead."""
from __future__ import annotations

import re
from collections.abc import Callable
from functools import cache
from pathlib import Path
from typing import NamedTuple

from .replies import Reply
from .schema import Schema
from .statements import Token, tokens_in

PAGE = Path(__file__).resolve().parents[2] / "docs" / "SQL.md"
ROW = re.compile(r"\| (E\d\d) \| `\w+` \| (.*) \| [^|]* ?\|$", re.MULTILINE)
INSTEAD = re.compile(r"^\| (.+) \| (E\d\d(?:, E\d\d)*) \| (.+) \|$", re.MULTILINE)
MOST_SHOWN = 100
TYPES = (
    "boolean", "char", "date", "decimal", "double", "float", "int", "integer", "interval", "json", "jsonb", "numeric",
    "real", "serial", "smallint", "text", "timestamp", "timestamptz", "uuid", "varchar",
)  # fmt: skip
FUNCTIONS = ("avg", "count", "max", "min", "sum")
BUCKETS = ("time_bucket", "calendar_bucket")
DATE_WORDS = ("interval", "date", "timestamp", "timestamptz", "now")
COMPARISONS = ("=", "<", ">", "<=", ">=", "<>", "!=")


# ---- what docs/SQL.md says


@cache
def page() -> str:
    """The page of the SQL; nothing if it can't be read."""
    try:
        return PAGE.read_text(encoding="utf-8")
    except OSError:
        return ""


@cache
def meanings() -> dict[str, str]:
    """What each number means, from the table of `docs/SQL.md`."""
    return dict(ROW.findall(page()))


@cache
def rows_instead() -> list[tuple[str, str]]:
    """The rows of "Not in this SQL": what isn't there, and what to write instead."""
    _, _, section = page().partition("## Not in this SQL")
    return [(what, instead) for what, _, instead in INSTEAD.findall(section)]


# ---- which row fits


class Place(NamedTuple):
    """A statement's tokens, and the number of the one at the caret, which may lie behind the last one."""

    tokens: list[Token]
    at: int

    def here(self) -> Token | None:
        """The token at the caret."""
        return self.tokens[self.at] if self.at < len(self.tokens) else None

    def near(self, step: int) -> Token | None:
        """The token so many behind or before the caret."""
        place = self.at + step
        return self.tokens[place] if 0 <= place < len(self.tokens) else None

    def is_word(self, *words: str, step: int = 0) -> bool:
        """Whether the token there is one of these words."""
        token = self.near(step)
        return token is not None and token.is_word(*words)

    def is_symbol(self, *symbols: str, step: int = 0) -> bool:
        """Whether the token there is one of these symbols."""
        token = self.near(step)
        return token is not None and token.kind == "symbol" and token.text in symbols

    def is_kind(self, kind: str, step: int = 0) -> bool:
        """Whether the token there is of this kind."""
        token = self.near(step)
        return token is not None and token.kind == kind

    def is_first(self, *words: str) -> bool:
        """Whether the statement begins with one of these words."""
        return bool(self.tokens) and self.tokens[0].is_word(*words)

    def has(self, *words: str) -> bool:
        """Whether one of these words stands before the caret."""
        return any(token.is_word(*words) for token in self.tokens[: self.at])


def quoted_months(place: Place) -> bool:
    """Whether a quoted number of months or the like is at the caret."""
    here = place.here()
    return here is not None and here.kind == "quoted" and bool(re.search(r"month|year", here.text, re.IGNORECASE))


def bare_name(place: Place) -> bool:
    """Whether a name without quotes is at the caret, where a call takes one in quotes."""
    is_call = place.is_word("create_hypertable", "refresh_continuous_aggregate", "drop_chunks", step=-2)
    return is_call and place.is_symbol("(", step=-1) and place.is_kind("word")


def in_list(place: Place) -> bool:
    """Whether the caret is in the list of a SELECT."""
    return place.is_first("select") and not place.has("from")


def total_of_all(place: Place) -> bool:
    """Whether a SELECT list begins with an aggregate, and has no bucket."""
    is_function = place.is_word(*FUNCTIONS) or place.is_word(*FUNCTIONS, step=-1)
    return in_list(place) and not place.has(*BUCKETS) and place.at <= 2 and is_function


def list_of_columns(place: Place) -> bool:
    """Whether a SELECT list begins with a column."""
    return in_list(place) and not place.has(*BUCKETS) and place.at in (1, 2) and place.here() is not None


# What is met, and a part of the row of "Not in this SQL" that fits it: the first one that holds is taken.
HINTS: list[tuple[Callable[[Place], bool], str]] = [
    (lambda it: it.is_word("order", "limit", "having", "offset"), "`ORDER BY`, `LIMIT`"),
    (lambda it: it.is_word("join", "inner", "left", "right", "full", "cross", "union", "natural"), "`JOIN`"),
    (lambda it: it.is_word("from", step=-1) and it.is_symbol("("), "`JOIN`"),
    (lambda it: it.is_word("or", "in", "between"), "`OR`"),
    (lambda it: it.has("group") and it.is_symbol("(") and it.is_word("time_bucket", step=-1), "`GROUP BY time_bucket"),
    (quoted_months, "`time_bucket('1 month', time)`"),
    (bare_name, "a name without quotes"),
    (lambda it: it.is_word("if", "if_not_exists") or it.is_word("if", step=-1), "`IF NOT EXISTS`"),
    (lambda it: it.has("create_hypertable"), "`create_hypertable('m', 'time')`"),
    (lambda it: it.is_kind("quoted") and it.has("time_bucket", "interval"), "`time_bucket('1 hour', time)`"),
    (lambda it: it.is_word(*DATE_WORDS) and not it.is_first("create"), "`time_bucket('1 hour', time)`"),
    (lambda it: it.is_word(*TYPES) and it.is_first("create"), "other types"),
    (lambda it: it.is_kind("quoted") and it.has("values"), "`'text'` as a value"),
    (lambda it: it.is_symbol(".") and it.is_kind("number", step=-1), "`1.5`"),
    (lambda it: it.is_first("update") or it.is_first("create") and it.is_word("index", "unique"), "`UPDATE`"),
    (lambda it: it.is_first("alter") and it.is_word("table"), "`UPDATE`"),
    (lambda it: it.is_word("primary", "unique", "references", "default", "check"), "`UPDATE`"),
    (lambda it: it.is_first("drop", "truncate"), "`DROP TABLE`"),
    (lambda it: it.is_first("show") or it.is_symbol("\\"), "`SHOW TABLES`"),
    (lambda it: it.is_symbol(";", step=-1), "two statements on a line"),
    (lambda it: it.is_word("transaction", "work") or it.is_first("start", "end"), "`BEGIN TRANSACTION`"),
    (lambda it: it.is_symbol('"'), "in double quotes"),
    (lambda it: it.is_symbol("/") and it.is_symbol("*", step=1), "`/* .. */`"),
    (lambda it: it.is_kind("quoted"), "anything but a word in quotes"),
    (lambda it: it.is_symbol("+", "-", "*", "/", "%") and it.at > 1, "`v + 1`"),
    (lambda it: it.is_kind("word") and it.has("where") and it.is_symbol(*COMPARISONS, step=-1), "`v + 1`"),
    (total_of_all, "an aggregate without a bucket"),
    (list_of_columns, "a list of columns"),
    (lambda it: in_list(it) and it.has(*FUNCTIONS) and it.is_symbol(",", step=-1), "an aggregate before a key"),
]  # fmt: skip


def place_of(reply: Reply, place: int) -> Place:
    """The tokens of a reply's statement, and which of them is at a place of the line, which counts from 1."""
    tokens = tokens_in(reply.line.text, reply.line.front())
    at = next((number for number, token in enumerate(tokens) if token.end >= place), len(tokens))
    return Place(tokens, at)


def part_for_aggregate(reply: Reply, schema: Schema) -> str | None:
    """The part of the row that fits a test that an aggregate doesn't take."""
    tokens = reply.line.tokens()
    source = next((after for word, after in zip(tokens, tokens[1:]) if word == "from"), "")
    if source not in schema.sources or "where" not in tokens:
        return None
    return "filtered by a key" if tokens[1:2] == ["*"] else "a roll-up bounded in time"


def instead_of(reply: Reply, schema: Schema) -> str | None:
    """The row of "Not in this SQL" that fits a refusal, if one does."""
    found = reply.fault()
    if found is None:
        return None
    part = None
    if found[0] == "E08":
        part = part_for_aggregate(reply, schema)
    elif found[0] in ("E04", "E05") and found[2]:
        met = place_of(reply, int(found[2]))
        part = next((part for holds, part in HINTS if holds(met)), None)
    return next((f"{what}. Instead: {instead}" for what, instead in rows_instead() if part and part in what), None)


# ---- lines


def around(text: str, place: int) -> tuple[str, int]:
    """The part of a text that is shown, and where in it the place is, which counts from 1."""
    start = max(0, place - MOST_SHOWN // 2) if len(text) > MOST_SHOWN else 0
    shown = text[start : start + MOST_SHOWN]
    front, back = "..." * (start > 0), "..." * (start + MOST_SHOWN < len(text))
    return front + shown + back, place - start + len(front)


def printable(text: str) -> str:
    """The text with tabs as blanks, and a dot for what a terminal wouldn't show."""
    return "".join(" " if char == "\t" else char if char.isprintable() else "." for char in text)


def explanation(reply: Reply, is_numbered: bool = True, schema: Schema | None = None) -> list[str]:
    """The lines that explain the refusal of a reply, with the number of its line in the script or without it."""
    fault = reply.fault()
    if fault is None:
        return []
    number, _, place = fault
    shown, caret = around(printable(reply.line.text), int(place or 1))
    front = f"  {reply.line.number}" if is_numbered else " "
    lines = [f"{front} | {shown}"]
    if place:
        lines.append(" " * len(front) + " | " + " " * (caret - 1) + "^")
    if instead := instead_of(reply, schema or Schema()):
        lines.append(f"  {number}: not in this SQL: {instead}")
    elif meaning := meanings().get(number):
        lines.append(f"  {number}: {meaning}")
    return lines
