"""What may follow at the place where the tabulator is pressed: words of the SQL, and names that fit there."""
from __future__ import annotations

from collections.abc import Callable

from .schema import Schema
from .statements import SESSION, Token, tokens_in

BEGINNINGS = [
    "ALTER MATERIALIZED VIEW", "BEGIN", "CALL", "COMMIT", "CREATE", "DELETE FROM", "INSERT INTO", "REFRESH", "ROLLBACK",
    "SELECT", "TICK",
]  # fmt: skip
SELECTED = [
    "* FROM", "time_bucket(", "calendar_bucket(", "create_hypertable(", "drop_chunks(",
    "add_continuous_aggregate_policy(", "add_retention_policy(",
]  # fmt: skip
FUNCTIONS = ["avg(", "count(", "max(", "min(", "sum("]
# What follows a word, if nothing else is known.
FOLLOWING: dict[str, list[str]] = {
    "create": ["TABLE", "MATERIALIZED VIEW"], "refresh": ["CUT", "FINISH", "SNAP"], "begin": ["READ ONLY"],
    "read": ["ONLY"],
    "call": ["refresh_continuous_aggregate("], "materialized": ["VIEW"], "group": ["BY"], "is": ["NULL", "NOT NULL"],
    "not": ["NULL"], "insert": ["INTO"], "delete": ["FROM"], "alter": ["MATERIALIZED VIEW"],
    "with": ["(timescaledb.continuous", "DATA", "NO DATA"],
    "no": ["DATA"], "set": ["(timescaledb.materialized_only ="], "table": [], "commit": [], "rollback": [], "tick": [],
}  # fmt: skip
TABLE_CALLS = ("create_hypertable", "drop_chunks", "add_retention_policy")
VIEW_CALLS = ("refresh_continuous_aggregate", "add_continuous_aggregate_policy")
BACKSLASH = ["\\?", "\\d", "\\i", "\\policies", "\\pset", "\\q", "\\stale", "\\timing", "\\watch", "\\watermark", "\\x"]


def columns(schema: Schema, name: str | None) -> list[str]:
    """The columns of a relation; those of all if it isn't known."""
    outputs = [schema.outputs[name]] if name in schema.outputs else list(schema.outputs.values())
    return sorted({column for output in outputs for column in output.names})


def relation_in(tokens: list[Token]) -> str | None:
    """The relation that a statement names, if it does already."""
    for before, token in zip(tokens, tokens[1:]):
        if before.is_word("from", "into") and token.kind == "word":
            return token.text.lower()
    return None


def aliases(tokens: list[Token]) -> list[str]:
    """The names that a SELECT list gives by AS."""
    return [token.text for before, token in zip(tokens, tokens[1:]) if before.is_word("as") and token.kind == "word"]


def in_call(tokens: list[Token]) -> str:
    """The function in whose parentheses the text ends, if it ends in some."""
    depth = 0
    for place in range(len(tokens) - 1, 0, -1):
        depth += tokens[place].is_symbol(")") - tokens[place].is_symbol("(")
        if depth < 0:
            return tokens[place - 1].text.lower()
    return ""


def after_relation(tokens: list[Token]) -> list[str]:
    """What follows the name of a relation."""
    verb = tokens[-2]
    if verb.is_word("into"):
        return ["VALUES (", "("]
    if verb.is_word("view"):
        return ["SET", "WITH"]
    is_fold = any(token.is_word("time_bucket", "calendar_bucket") for token in tokens)
    return ["WHERE"] + ["GROUP BY"] * is_fold


def names_in_call(schema: Schema, tokens: list[Token]) -> list[str] | None:
    """Names that fit into the parentheses of a function; None if it is none that is known."""
    function = in_call(tokens)
    is_first = tokens[-1].is_symbol("(") or tokens[-1].text.startswith("'")
    if is_first and function in TABLE_CALLS:
        return sorted(set(schema.outputs) - set(schema.sources))
    if is_first and function in VIEW_CALLS:
        return sorted(schema.sources)
    if function in ("time_bucket", "calendar_bucket", "avg", "count", "max", "min", "sum"):
        return columns(schema, relation_in(tokens))
    if function == "create_hypertable":
        return columns(schema, None) + ["chunk_time_interval =>"]
    if function in TABLE_CALLS + VIEW_CALLS:
        return ["older_than =>", "drop_after =>", "start_offset =>", "end_offset =>", "schedule_interval =>", "NULL"]
    return None


def candidates(schema: Schema, before: str) -> list[str]:
    """What may follow a text."""
    found = SESSION.match(before)
    tokens = tokens_in(before, found.end() if found else 0)
    starts = [place for place, token in enumerate(tokens) if token.is_symbol(";")]
    tokens = tokens[starts[-1] + 1 :] if starts else tokens
    if not tokens:
        return BEGINNINGS + BACKSLASH
    last = tokens[-1]
    if last.is_word("from", "into"):
        return sorted(schema.outputs)
    if last.is_word("view"):
        return sorted(schema.sources)
    if last.is_word("cut"):
        return sorted(schema.sources)
    names = names_in_call(schema, tokens)
    if names is not None:
        return names
    if len(tokens) > 1 and tokens[-2].is_word("from", "into", "view"):
        return after_relation(tokens)
    return after_word(schema, tokens)


def after_word(schema: Schema, tokens: list[Token]) -> list[str]:
    """What may follow a word or symbol that no name has to follow."""
    last = tokens[-1]
    if last.is_word("select"):
        return SELECTED
    if last.is_word("where", "and", "by") or last.is_symbol("(") and any(token.is_word("into") for token in tokens):
        return (aliases(tokens) if last.is_word("by") else []) + columns(schema, relation_in(tokens))
    if last.is_symbol("*") or last.is_symbol(")"):
        return ["FROM", "AS", "AND"] if tokens[0].is_word("select") else ["AS", "VALUES (", "WITH NO DATA"]
    if last.is_symbol(","):
        return FUNCTIONS + columns(schema, relation_in(tokens))
    if last.kind == "word" and last.text.lower() in FOLLOWING:
        return FOLLOWING[last.text.lower()]
    if any(token.is_word("where") for token in tokens):
        return ["AND", "IS NULL", "IS NOT NULL", "GROUP BY"]
    return ["AND", "AS", "BY", "FROM", "GROUP BY", "NULL", "VALUES (", "WHERE", "WITH NO DATA"]


def fitting(schema: Schema, before: str, part: str) -> list[str]:
    """What may follow a text and begins with a part of a word: in small letters if the part is."""
    words = [word for word in candidates(schema, before) if word.lower().startswith(part.lower())]
    small = part != "" and part == part.lower()
    return [word.lower() if small and word.upper() == word else word for word in words]


def completer(schema: Schema, before: Callable[[str], str]) -> Callable[[str, int], str | None]:
    """What readline calls for the words that begin with a part. `before` gives the text before it."""
    found: list[str] = []

    def complete(part: str, state: int) -> str | None:
        if state == 0:
            found[:] = fitting(schema, before(part), part)
        return found[state] if state < len(found) else None

    return complete
