"""Views of a dump that are folds by time_bucket, as statements of this SQL."""
from __future__ import annotations

import re
from collections.abc import Callable

from .imported import Imported, Source, name_here
from .intervals import length_of
from .names import Names, Unit
from .pg_dump import plain
from .values import Bad, number_of, time_of

TOKEN = re.compile(
    r"""\s+|("(?:[^"]|"")*"|[A-Za-z_][\w$]*|E?'(?:[^']|'')*'|-?\d+(?:\.\d+)?|::|<>|<=|>=|=>|!=|.)""", re.DOTALL
)
# A cast to a type, of which only the value matters.
CAST = re.compile(
    r"(?:timestamp|time) (?:with|without) time zone|double precision|character varying|[a-z_][\w.]*", re.IGNORECASE
)
FUNCTIONS = ("count", "sum", "min", "max", "avg")
COMPARISONS = ("=", "<>", "<", "<=", ">", ">=")
BUCKETS = ("time_bucket", "date_bin")
MOST_WIDTH = 2**40


def tokens_of(query: str) -> list[str]:
    """The tokens of a query, without casts and without the names in front of columns."""
    query = re.sub(rf"::(?:{CAST.pattern})(?:\(\d+(?:,\d+)?\))?", "", query, flags=re.IGNORECASE)
    found = [token for token in TOKEN.findall(query) if token]
    out: list[str] = []
    for token in found:
        if len(out) >= 2 and out[-1] == ".":
            out[-2:] = [token]
        else:
            out.append(token)
    return out


def without_parentheses(tokens: list[str]) -> list[str]:
    """Tokens without parentheses around all of them."""
    while len(tokens) > 1 and tokens[0] == "(" and closing(tokens, 0) == len(tokens) - 1:
        tokens = tokens[1:-1]
    return tokens


def closing(tokens: list[str], place: int) -> int:
    """The place of the parenthesis that closes the one at a place."""
    depth = 0
    for at in range(place, len(tokens)):
        depth += (tokens[at] == "(") - (tokens[at] == ")")
        if depth == 0:
            return at
    raise Bad("has a parenthesis without its end")


def split(tokens: list[str], separator: str) -> list[list[str]]:
    """Tokens parted at a word or a symbol that stands in no parentheses."""
    parts: list[list[str]] = [[]]
    depth = 0
    for token in tokens:
        depth += (token == "(") - (token == ")")
        if depth == 0 and token.lower() == separator:
            parts.append([])
        else:
            parts[-1].append(token)
    return parts


def clauses_of(tokens: list[str]) -> dict[str, list[str]]:
    """The parts of a query by the words that begin them. Any other clause ends as Bad."""
    found: dict[str, list[str]] = {}
    word, depth = "", 0
    for token in tokens:
        depth += (token == "(") - (token == ")")
        lower = token.lower()
        if depth == 0 and lower in (
            "having",
            "order",
            "limit",
            "union",
            "join",
            "window",
            "distinct",
            "with",
            "offset",
        ):
            raise Bad(f"has {lower.upper()}")
        if depth == 0 and lower in ("select", "from", "where", "group"):
            word = lower
            found[word] = []
        elif word:
            found[word].append(token)
    if not {"select", "from", "group"} <= found.keys():
        raise Bad("is no SELECT with GROUP BY")
    return found


class Fold:
    """Makes the definition of an aggregate of a view."""

    def __init__(self, sources: list[Source], names: Names, unit: Unit, scales: dict[str, int]) -> None:
        self.sources = sources
        self.names = names
        self.unit = unit
        self.scales = scales

    def definition(self, view: str, query: str) -> str:
        """The CREATE MATERIALIZED VIEW of a view with this name here. A query that has no such form ends as Bad."""
        clauses = clauses_of(tokens_of(query))
        source = self.source(clauses["from"])
        items = [self.item(tokens, source) for tokens in split(clauses["select"], ",")]
        texts = [text for text, _ in items]
        keys = sum(not is_function for _, is_function in items) - 1
        kinds = [is_function for _, is_function in items]
        if not texts[0].startswith("time_bucket(") or kinds != sorted(kinds) or not any(kinds):
            raise Bad("isn't a bucket, then keys, then functions")
        if len(split(clauses["group"][1:], ",")) != 1 + keys:
            raise Bad("groups by other columns than it shows")
        tests = [self.test(part, source) for part in self.conjunction(clauses.get("where", []))]
        where = f" WHERE {' AND '.join(tests)}" if tests else ""
        group = ", ".join(str(place) for place in range(1, keys + 2))
        with_ = "timescaledb.continuous, timescaledb.materialized_only = false"
        return (
            f"CREATE MATERIALIZED VIEW {view} WITH ({with_}) AS SELECT {', '.join(texts)} "
            f"FROM {source.name}{where} GROUP BY {group}"
        )

    def source(self, tokens: list[str]) -> Source:
        """The table of a FROM, which may have another name there."""
        words = [plain(token) for token in tokens]
        found = [source for source in self.sources if source.table.name.rpartition(".")[2] == words[0]]
        if len(found) != 1 or len(words) > 2:
            raise Bad(f"isn't a query of one table that was taken, but of {' '.join(words)}")
        return found[0]

    def column(self, token: str, source: Source) -> Imported:
        """The column of a name."""
        for column, declared in zip(source.columns, source.table.columns):
            if declared.name == plain(token):
                return column
        raise Bad(f"has {token}, which is no column")

    def item(self, tokens: list[str], source: Source) -> tuple[str, bool]:
        """An item of the SELECT list, and whether it is a function."""
        name = ""
        if len(tokens) > 2 and tokens[-2].lower() == "as":
            name, tokens = plain(tokens[-1]), tokens[:-2]
        tokens = without_parentheses(tokens)
        alias = f" AS {name_here(name, set())}" if name else ""
        if len(tokens) == 1:
            column = self.column(tokens[0], source).name
            if name and name != column:
                raise Bad(f"calls its key {column} {name}")
            return column, False
        call = tokens[0].lower()
        if tokens[1] != "(" or closing(tokens, 1) != len(tokens) - 1:
            raise Bad(f"has {' '.join(tokens)}")
        words = tokens[2:-1]
        if call in BUCKETS:
            return self.bucket(split(words, ","), source) + alias, False
        if call in FUNCTIONS and words == ["*"]:
            return f"count(*){alias}", True
        if call in FUNCTIONS and len(words) == 1:
            return f"{call}({self.function_column(call, words[0], source)}){alias}", True
        raise Bad(f"has {' '.join(tokens)}")

    def function_column(self, call: str, token: str, source: Source) -> str:
        """The column of a function, whose numbers have to mean what the function makes of them."""
        column = self.column(token, source)
        if call != "count" and column.kind == "text":
            raise Bad(f"has {call} of texts")
        return column.name

    def bucket(self, words: list[list[str]], source: Source) -> str:
        """A time_bucket of a fixed width. What follows the time is an origin, or, of numbers, an offset."""
        if not 2 <= len(words) <= 3 or len(words[1]) != 1:
            raise Bad("has a time_bucket of another form")
        time = self.column(words[1][0], source)
        if time is not source.columns[source.time]:
            raise Bad(f"has buckets of {time.name}, which isn't the time")
        is_date = time.kind == "time"
        width = length_of(self.text(words[0]), self.unit) if is_date else int(self.text(words[0]))
        if not 1 <= width <= MOST_WIDTH:
            raise Bad("has a width that is too great or too small")
        start = words[2][2:] if len(words) == 3 and words[2][1:2] == ["=>"] else (words[2:] or [[]])[0]
        if start:
            offset = time_of(self.text(start), self.unit) if is_date else int(self.text(start))
        else:
            # TimescaleDB counts buckets of dates from a Monday.
            offset = time_of("2000-01-03", self.unit) if is_date else 0
        offset %= width
        return f"time_bucket({width}, {time.name}{f', {offset}' * (offset > 0)})"

    @staticmethod
    def text(tokens: list[str]) -> str:
        """The value of a literal."""
        tokens = [token for token in tokens if token.lower() not in ("interval", "timestamptz", "bigint")]
        if len(tokens) != 1 or not re.fullmatch(r"'.*'|-?\d+(?:\.\d+)?", tokens[0], re.DOTALL):
            raise Bad(f"has {' '.join(tokens)}")
        return tokens[0].strip("'") if tokens[0].startswith("'") else tokens[0]

    def conjunction(self, tokens: list[str]) -> list[list[str]]:
        """The tests of a WHERE that AND joins."""
        tokens = without_parentheses(tokens)
        if not tokens:
            return []
        parts = split(tokens, "and")
        return [tokens] if len(parts) == 1 else [test for part in parts for test in self.conjunction(part)]

    def test(self, tokens: list[str], source: Source) -> str:
        """A test of one column."""
        column = self.column(tokens[0], source)
        words = [token.upper() for token in tokens[1:]]
        if words in (["IS", "NULL"], ["IS", "NOT", "NULL"]):
            return f"{column.name} {' '.join(words)}"
        if len(tokens) < 3 or tokens[1] not in COMPARISONS:
            raise Bad(f"has the test {' '.join(tokens)}")
        text = self.text(without_parentheses(tokens[2:]))
        return f"{column.name} {tokens[1]} {self.number(column, text, tokens[1])}"

    def number(self, column: Imported, text: str, comparison: str) -> int:
        """A number that a column is compared with."""
        readers: dict[str, Callable[[], int]] = {
            "time": lambda: time_of(text, self.unit),
            "number": lambda: number_of(text, self.scales.get(column.name, 0), ""),
        }
        readers["whole"] = readers["number"]
        if column.kind in readers:
            return readers[column.kind]()
        number = self.names.number_of(column.name, text.replace("''", "'")) if column.kind == "text" else None
        if number is None or comparison not in ("=", "<>"):
            raise Bad(f"compares {column.name} with {text}")
        return number
