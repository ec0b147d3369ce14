"""Statements of a script, as the table under "Statements" of docs/SQL.md writes them.

A statement is read from left to right, and refused at the first token after which nothing fits: E04 where no token
begins, E05 where it doesn't fit, E10 where a number fits and isn't one of 64 bits.
"""
from collections.abc import Callable
from dataclasses import dataclass
from typing import NamedTuple, TypeVar

from lines import GREATEST_NUMBER, LEAST_NUMBER, Line, Token, Tokens
from refusals import Refused

T = TypeVar("T")
FUNCTIONS = ("count", "sum", "min", "max", "avg")
COMPARISONS = ("=", "<>", "!=", "<", "<=", ">", ">=")
IS_NULL, IS_NOT_NULL = "IS NULL", "IS NOT NULL"


class Test(NamedTuple):
    """A condition: a column, a comparison, and the number that is compared with."""

    column: str
    comparison: str
    number: int


class Call(NamedTuple):
    """An aggregate function of a SELECT list. The column of `count(*)` is empty."""

    function: str
    column: str
    name: str


@dataclass(frozen=True)
class Bucket:
    """`time_bucket`, or with a unit `calendar_bucket`. An offset that isn't written is None."""

    width: int
    column: str
    offset: int | None
    name: str
    unit: str | None


@dataclass(frozen=True)
class Fold:
    bucket: Bucket
    keys: tuple[str, ...]
    calls: tuple[Call, ...]
    relation: str
    tests: tuple[Test, ...]


@dataclass(frozen=True)
class CreateTable:
    name: str
    columns: tuple[tuple[str, bool], ...]


@dataclass(frozen=True)
class CreateHypertable:
    relation: str
    column: str
    interval: int


@dataclass(frozen=True)
class CreateView:
    name: str
    only: bool
    fold: Fold
    with_data: bool


@dataclass(frozen=True)
class AlterView:
    relation: str
    only: bool


@dataclass(frozen=True)
class Insert:
    relation: str
    columns: tuple[str, ...] | None
    rows: tuple[tuple[int | None, ...], ...]


@dataclass(frozen=True)
class Delete:
    relation: str
    tests: tuple[Test, ...]


@dataclass(frozen=True)
class DropChunks:
    relation: str
    bound: int


@dataclass(frozen=True)
class SelectAll:
    relation: str
    tests: tuple[Test, ...]


@dataclass(frozen=True)
class Refresh:
    """`CALL refresh_continuous_aggregate`, or its first phase alone."""

    relation: str
    low: int | None
    high: int | None
    only_cut: bool = False


@dataclass(frozen=True)
class Snap:
    cut: int | None


@dataclass(frozen=True)
class Finish:
    cut: int | None


@dataclass(frozen=True)
class Begin:
    read_only: bool


@dataclass(frozen=True)
class Commit:
    pass


@dataclass(frozen=True)
class Rollback:
    pass


@dataclass(frozen=True)
class RefreshPolicy:
    relation: str
    start: int | None
    end: int | None
    interval: int


@dataclass(frozen=True)
class RetentionPolicy:
    relation: str
    after: int
    interval: int


@dataclass(frozen=True)
class Tick:
    time: int


Statement = (
    CreateTable | CreateHypertable | CreateView | AlterView | Insert | Delete | DropChunks | Fold | SelectAll | Refresh
    | Snap | Finish | Begin | Commit | Rollback | RefreshPolicy | RetentionPolicy | Tick
)


class Reader:
    """Reads one statement."""

    def __init__(self, line: Line) -> None:
        self.tokens = Tokens(line)

    # ---- single tokens

    def misfit(self, token: Token) -> Refused:
        return Refused(5, token.place)

    def is_next(self, *texts: str) -> bool:
        """Whether the next token is one of these words or symbols."""
        token = self.tokens.peek()
        return token.kind in ("word", "symbol") and token.text in texts

    def accept(self, text: str) -> bool:
        """Takes the next token if it is this word or symbol."""
        found = self.is_next(text)
        if found:
            self.tokens.take()
        return found

    def expect(self, *texts: str) -> str:
        """Takes these words or symbols, one after the other."""
        for text in texts:
            if not self.accept(text):
                raise self.misfit(self.tokens.peek())
        return texts[-1]

    def one_of(self, *texts: str) -> str:
        if not self.is_next(*texts):
            raise self.misfit(self.tokens.peek())
        return self.tokens.take().text

    def taken(self, kind: str) -> Token:
        if self.tokens.peek().kind != kind:
            raise self.misfit(self.tokens.peek())
        return self.tokens.take()

    def word(self) -> str:
        return self.taken("word").text

    def quoted(self) -> str:
        return self.taken("quoted").text

    def number(self) -> int:
        token = self.taken("number")
        number = int(token.text)
        if not LEAST_NUMBER <= number <= GREATEST_NUMBER:
            raise Refused(10, token.place)
        return number

    def number_or_null(self) -> int | None:
        return None if self.accept("null") else self.number()

    def named(self, name: str) -> int:
        self.expect(name, "=>")
        return self.number()

    def flag(self) -> bool:
        return self.one_of("true", "false") == "true"

    # ---- statements

    def statement(self) -> Statement:
        """The whole statement, up to the end of the line."""
        found = self.body()
        self.accept(";")
        self.taken("end")
        return found

    def body(self) -> Statement:
        kinds: dict[str, Callable[[], Statement]] = {
            "create": self.create, "select": self.select, "alter": self.alter, "insert": self.insert,
            "delete": self.delete, "call": self.call, "refresh": self.refresh, "begin": self.begin, "commit": Commit,
            "rollback": Rollback, "tick": self.tick,
        }
        return kinds[self.one_of(*kinds)]()

    def create(self) -> CreateTable | CreateView:
        if self.one_of("table", "materialized") == "materialized":
            return self.create_view()
        name = self.word()
        columns = []
        mark = self.expect("(")
        while mark != ")":
            column = self.word()
            self.expect("bigint")
            must = self.accept("not") and self.expect("null") == "null"
            columns.append((column, must))
            mark = self.one_of(",", ")")
        return CreateTable(name, tuple(columns))

    def create_view(self) -> CreateView:
        self.expect("view")
        name = self.word()
        self.expect("with", "(", "timescaledb", ".", "continuous")
        if self.accept("="):
            self.expect("true")
        only = True
        if self.one_of(",", ")") == ",":
            self.expect("timescaledb", ".", "materialized_only", "=")
            only = self.flag()
            self.expect(")")
        self.expect("as", "select", "time_bucket")
        fold = self.fold(None)
        with_data = True
        if self.accept("with"):
            with_data = self.one_of("no", "data") == "data"
            if not with_data:
                self.expect("data")
        return CreateView(name, only, fold, with_data)

    def alter(self) -> AlterView:
        self.expect("materialized", "view")
        relation = self.word()
        self.expect("set", "(", "timescaledb", ".", "materialized_only", "=")
        only = self.flag()
        self.expect(")")
        return AlterView(relation, only)

    def insert(self) -> Insert:
        self.expect("into")
        relation = self.word()
        columns = None
        if self.one_of("(", "values") == "(":
            columns = self.listed(self.word)
            self.expect("values")
        rows: list[tuple[int | None, ...]] = []
        while not rows or self.accept(","):
            self.expect("(")
            rows.append(self.listed(self.number_or_null))
        return Insert(relation, columns, tuple(rows))

    def listed(self, item: Callable[[], T]) -> tuple[T, ...]:
        """Items with commas between them, and the parenthesis that ends them."""
        items = [item()]
        while self.one_of(",", ")") == ",":
            items.append(item())
        return tuple(items)

    def delete(self) -> Delete:
        self.expect("from")
        return Delete(self.word(), self.tests())

    def tests(self) -> tuple[Test, ...]:
        found: list[Test] = []
        if self.accept("where"):
            found.append(self.test())
            while self.accept("and"):
                found.append(self.test())
        return tuple(found)

    def test(self) -> Test:
        column = self.word()
        comparison = self.one_of("is", *COMPARISONS)
        if comparison != "is":
            return Test(column, "<>" if comparison == "!=" else comparison, self.number())
        is_not = self.accept("not")
        self.expect("null")
        return Test(column, IS_NOT_NULL if is_not else IS_NULL, 0)

    def select(self) -> Statement:
        kinds: dict[str, Callable[[], Statement]] = {
            "*": self.select_all, "time_bucket": lambda: self.fold(None), "calendar_bucket": lambda: self.fold("unit"),
            "create_hypertable": self.create_hypertable, "drop_chunks": self.drop_chunks,
            "add_continuous_aggregate_policy": self.refresh_policy, "add_retention_policy": self.retention_policy,
        }
        return kinds[self.one_of(*kinds)]()

    def select_all(self) -> SelectAll:
        self.expect("from")
        return SelectAll(self.word(), self.tests())

    def create_hypertable(self) -> CreateHypertable:
        self.expect("(")
        relation = self.quoted()
        self.expect(",")
        column = self.quoted()
        self.expect(",")
        interval = self.named("chunk_time_interval")
        self.expect(")")
        return CreateHypertable(relation, column, interval)

    def drop_chunks(self) -> DropChunks:
        self.expect("(")
        relation = self.quoted()
        self.expect(",")
        if self.accept("older_than"):
            self.expect("=>")
        bound = self.number()
        self.expect(")")
        return DropChunks(relation, bound)

    # ---- folds

    def bucket(self, unit: str | None) -> Bucket:
        self.expect("(")
        width = self.number()
        self.expect(",")
        if unit:
            unit = self.quoted()
            self.expect(",")
        column, offset = self.word(), None
        if not unit and self.accept(","):
            offset = self.number()
        self.expect(")")
        name = self.word() if self.accept("as") else "calendar_bucket" if unit else "time_bucket"
        return Bucket(width, column, offset, name, unit)

    def fold(self, unit: str | None) -> Fold:
        bucket = self.bucket(unit)
        keys: list[str] = []
        calls: list[Call] = []
        self.expect(",")
        while not calls or self.one_of(",", "from") == ",":
            item = self.one_of(*FUNCTIONS) if calls else self.word()
            if calls or (item in FUNCTIONS and self.is_next("(")):
                calls.append(self.call_of(item))
            else:
                keys.append(item)
                self.expect(",")
        relation = self.word()
        tests = self.tests()
        self.group_by([bucket.name, *keys])
        return Fold(bucket, tuple(keys), tuple(calls), relation, tests)

    def call_of(self, function: str) -> Call:
        self.expect("(")
        column = "" if function == "count" and self.accept("*") else self.word()
        self.expect(")")
        return Call(function, column, self.word() if self.accept("as") else function)

    def group_by(self, names: list[str]) -> None:
        self.expect("group", "by")
        for place, name in enumerate(names, 1):
            if place > 1:
                self.expect(",")
            token = self.tokens.peek()
            fits = token.text == name if token.kind == "word" else token.kind == "number" and int(token.text) == place
            if not fits:
                raise self.misfit(token)
            self.tokens.take()

    # ---- refreshes, blocks, policies

    def call(self) -> Refresh:
        self.expect("refresh_continuous_aggregate", "(")
        found = self.window(False)
        self.expect(")")
        return found

    def window(self, only_cut: bool) -> Refresh:
        relation = self.quoted()
        self.expect(",")
        low = self.number_or_null()
        self.expect(",")
        return Refresh(relation, low, self.number_or_null(), only_cut)

    def refresh(self) -> Refresh | Snap | Finish:
        phase = self.one_of("cut", "snap", "finish")
        if phase == "cut":
            return self.window(True)
        cut = self.number() if self.tokens.peek().kind == "number" else None
        return Snap(cut) if phase == "snap" else Finish(cut)

    def begin(self) -> Begin:
        read_only = self.accept("read")
        if read_only:
            self.expect("only")
        return Begin(read_only)

    def refresh_policy(self) -> RefreshPolicy:
        self.expect("(")
        relation = self.quoted()
        self.expect(",", "start_offset", "=>")
        start = self.number_or_null()
        self.expect(",", "end_offset", "=>")
        end = self.number_or_null()
        self.expect(",")
        interval = self.named("schedule_interval")
        self.expect(")")
        return RefreshPolicy(relation, start, end, interval)

    def retention_policy(self) -> RetentionPolicy:
        self.expect("(")
        relation = self.quoted()
        self.expect(",")
        after, interval = self.named("drop_after"), 1
        if self.one_of(",", ")") == ",":
            interval = self.named("schedule_interval")
            self.expect(")")
        return RetentionPolicy(relation, after, interval)

    def tick(self) -> Tick:
        return Tick(self.number())


def read_statement(line: Line) -> Statement:
    """The statement of a line."""
    return Reader(line).statement()
