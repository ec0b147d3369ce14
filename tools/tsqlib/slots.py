"""Where a statement has a time, a length of time or a value of a column: by its tokens and their places in it."""
from __future__ import annotations

from collections.abc import Iterator
from typing import NamedTuple

from .schema import Output, Schema
from .statements import Token

# A time; how far two times lie apart; a time, or how long ago it was; a value of a column that is no time.
TIME, LENGTH, AGE, VALUE = "time", "length", "age", "value"
# The arguments that are named, and of what kind they are.
NAMED = {
    "chunk_time_interval": LENGTH, "older_than": AGE, "drop_after": LENGTH, "start_offset": LENGTH,
    "end_offset": LENGTH, "schedule_interval": LENGTH,
}  # fmt: skip
# The arguments of calls by their places. A place that isn't named has no time.
PLACED: dict[str, dict[int, str]] = {
    "time_bucket": {0: LENGTH, 2: LENGTH}, "drop_chunks": {1: AGE}, "create_hypertable": {2: LENGTH},
    "refresh_continuous_aggregate": {1: TIME, 2: TIME}, "add_continuous_aggregate_policy": {},
    "add_retention_policy": {1: LENGTH},
}  # fmt: skip
COMPARISONS = ("=", "<>", "!=", "<", "<=", ">", ">=")


class Slot(NamedTuple):
    """Tokens from one place on and before another one, what they are, and of a value the column's name among texts."""

    first: int
    last: int
    kind: str
    column: str = ""


def word_at(tokens: list[Token], place: int) -> str:
    """The word at a place in lower case; nothing if there is none."""
    return tokens[place].text.lower() if place < len(tokens) and tokens[place].kind == "word" else ""


def place_of(tokens: list[Token], *words: str, start: int = 0) -> int:
    """The place of the first of these words that stands in no parentheses; behind the last token if there is none."""
    depth = 0
    for place in range(start, len(tokens)):
        depth += tokens[place].is_symbol("(") - tokens[place].is_symbol(")")
        if depth <= 0 and tokens[place].is_word(*words):
            return place
    return len(tokens)


def items(tokens: list[Token], first: int) -> Iterator[tuple[int, int]]:
    """The bounds of what commas part, from a place behind a parenthesis on until that one is closed."""
    depth, start = 0, first
    for place in range(first, len(tokens)):
        token = tokens[place]
        if depth == 0 and (token.is_symbol(",") or token.is_symbol(")")):
            yield start, place
            start = place + 1
            if token.is_symbol(")"):
                return
        depth += token.is_symbol("(") - token.is_symbol(")")


def column_slot(output: Output | None, column: str, first: int, last: int) -> list[Slot]:
    """The slot of a value of a column; none if it isn't known."""
    if output is None or column not in output.names:
        return []
    place = output.names.index(column)
    unit = output.units[place] if place < len(output.units) else column
    return [Slot(first, last, TIME if place in output.times else VALUE, unit or column)]


# ---- by kinds of statements


def slots_of_rows(tokens: list[Token], schema: Schema) -> Iterator[Slot]:
    """Those of an INSERT."""
    output = schema.outputs.get(word_at(tokens, 2))
    values = place_of(tokens, "values")
    columns = [word_at(tokens, first) for first, _ in items(tokens, 4)] if values > 3 else []
    if values <= 3 and output:
        columns = output.names
    place = values + 1
    while place < len(tokens) and tokens[place].is_symbol("("):
        last = place
        for number, (first, last) in enumerate(items(tokens, place + 1)):
            yield from column_slot(output, columns[number] if number < len(columns) else "", first, last)
        place = last + 2


def slots_of_tests(tokens: list[Token], schema: Schema, start: int) -> Iterator[Slot]:
    """Those of a WHERE, of a statement that begins at a place."""
    output = schema.outputs.get(word_at(tokens, place_of(tokens, "from", start=start) + 1))
    place, end = place_of(tokens, "where", start=start), place_of(tokens, "group", "with", start=start)
    while place < end:
        last = min(place_of(tokens, "and", start=place + 1), end)
        if place + 2 < len(tokens) and tokens[place + 2].kind == "symbol" and tokens[place + 2].text in COMPARISONS:
            yield from column_slot(output, word_at(tokens, place + 1), place + 3, last)
        place = last


def slots_of_calls(tokens: list[Token], start: int) -> Iterator[Slot]:
    """Those of the arguments of calls, from a place on."""
    for place in range(start, len(tokens) - 1):
        kinds = PLACED.get(word_at(tokens, place))
        if kinds is None or not tokens[place + 1].is_symbol("("):
            continue
        for number, (first, last) in enumerate(items(tokens, place + 2)):
            is_named = first + 1 < last and tokens[first + 1].is_symbol("=>")
            named = NAMED.get(word_at(tokens, first)) if is_named else None
            if named:
                yield Slot(first + 2, last, named)
            elif number in kinds:
                yield Slot(first, last, kinds[number])


def slots_of_cut(tokens: list[Token]) -> Iterator[Slot]:
    """Those of a REFRESH CUT, whose arguments stand in no parentheses."""
    commas = [place for place, token in enumerate(tokens) if token.is_symbol(",")]
    for first, last in zip(commas, [*commas[1:], len(tokens)]):
        yield Slot(first + 1, last, TIME)


def slots(tokens: list[Token], schema: Schema) -> list[Slot]:
    """All of a statement's tokens without a semicolon."""
    first = word_at(tokens, 0)
    if first == "insert":
        return list(slots_of_rows(tokens, schema))
    if first == "tick":
        return [Slot(1, len(tokens), TIME)]
    if first == "refresh":
        return list(slots_of_cut(tokens))
    if first not in ("select", "delete", "call", "create"):
        return []
    start = place_of(tokens, "select") if first == "create" else 0
    return [*slots_of_calls(tokens, start), *slots_of_tests(tokens, schema, start)]
