"""Names and values of a statement at a moment, as "Which comes first" of docs/SQL.md orders what is looked at."""
from collections.abc import Sequence
from typing import NamedTuple

import grammar
from calendar_days import calendar_bucket
from grammar import IS_NOT_NULL, IS_NULL, Fold
from history import (
    GREATEST_TIME, LEAST_TIME, Answer, Deleted, Function, HyperMade, Inserted, Moment, Row, Table, TableMade, Test,
    View, ViewMade, Width, fold, lines_of,
)
from refusals import Refused

MOST_RELATIONS, MOST_COLUMNS, MOST_ROWS, MOST_UNITS = 64, 16, 1_000, 1_200
MOST_STEP, MOST_INTERVAL = 2**40, 2**50
UNITS = ("day", "week", "month", "year")
# What a roll-up may do with the columns of an aggregate, by the function that each shows.
ADDS_UP = {"sum": ("count", "sum"), "min": ("min",), "max": ("max",)}


def check(is_right: bool, code: int, more: str = "") -> None:
    if not is_right:
        raise Refused(code, more=more)


def check_time(time: int) -> None:
    check(LEAST_TIME <= time <= GREATEST_TIME, 9)


def check_new(moment: Moment, name: str, count: int) -> None:
    """The name of a relation to be made, with how many of its kind there are."""
    check(not moment.is_taken(name), 7)
    check(count < MOST_RELATIONS, 21, f" count {count + 1}")


# ---- relations


def a_hypertable(moment: Moment, name: str) -> tuple[int, Table]:
    check(moment.is_taken(name), 6)
    found = moment.table(name)
    if found is None or not moment.is_hypertable(found[0]):
        raise Refused(13)
    return found


def an_aggregate(moment: Moment, name: str) -> tuple[int, View]:
    check(moment.is_taken(name), 6)
    found = moment.view(name)
    if found is None:
        raise Refused(22)
    return found


def column_of(table: Table, name: str) -> int:
    number = table.number_of(name)
    if number is None:
        raise Refused(8)
    return number


def tests_of(table: Table, tests: Sequence[grammar.Test]) -> tuple[Test, ...]:
    return tuple(Test(column_of(table, it.column), it.comparison, it.number) for it in tests)


# ---- tables


def new_table(moment: Moment, statement: grammar.CreateTable) -> TableMade:
    check_new(moment, statement.name, moment.count_tables())
    names: list[str] = []
    for name, _ in statement.columns:
        check(name not in names, 7)
        names.append(name)
        check(len(names) <= MOST_COLUMNS, 21, f" count {len(statement.columns)}")
    return TableMade(statement.name, statement.columns)


def new_hypertable(moment: Moment, statement: grammar.CreateHypertable) -> HyperMade:
    check(moment.is_taken(statement.relation), 6)
    found = moment.table(statement.relation)
    if found is None:
        raise Refused(13)
    number, table = found
    check(not moment.is_hypertable(number), 7)
    names = [name for name, _ in table.columns]
    check(statement.column in names, 8)
    check(1 <= statement.interval <= MOST_INTERVAL, 14)
    return HyperMade(number, names.index(statement.column), statement.interval)


# ---- rows


def rows_to_insert(moment: Moment, statement: grammar.Insert) -> Inserted:
    number, table = a_hypertable(moment, statement.relation)
    declared = [name for name, _ in table.columns]
    columns = declared
    if statement.columns is not None:
        columns = []
        for name in statement.columns:
            check(name not in columns, 7)
            column_of(table, name)
            columns.append(name)
    must = [name for place, (name, must) in enumerate(table.columns) if must or place == table.place]
    time = declared[table.place or 0]
    rows: list[Row] = []
    for values in statement.rows:
        check(len(rows) < MOST_ROWS, 21, f" count {len(statement.rows)}")
        check(len(values) == len(columns), 11)
        check(all(name in columns for name in must), 12)
        given = dict(zip(columns, values))
        for name, value in given.items():
            check(value is not None or name not in must, 12)
            if name == time and value is not None:
                check_time(value)
        rows.append((given[time], *[given.get(declared[place]) for place in table.others]))
    return Inserted(number, tuple(rows))


def rows_to_delete(moment: Moment, statement: grammar.Delete) -> Deleted:
    number, table = a_hypertable(moment, statement.relation)
    return Deleted(number, tests_of(table, statement.tests))


def chunks_to_drop(moment: Moment, statement: grammar.DropChunks) -> Deleted:
    """The rows below the start of the chunk that holds the number."""
    number, table = a_hypertable(moment, statement.relation)
    check_time(statement.bound)
    start = Width(table.interval, 0).start(statement.bound)
    return Deleted(number, (Test(0, "<", start),))


# ---- folds


def check_step(step: int) -> None:
    check(1 <= step <= MOST_STEP, 14)


def new_view(moment: Moment, statement: grammar.CreateView) -> ViewMade:
    check_new(moment, statement.name, moment.count_views())
    asked = statement.fold
    number, table = a_hypertable(moment, asked.relation)
    width = width_over(table, asked)
    names = [asked.bucket.name]
    keys: list[int] = []
    functions: list[Function] = []
    for key in asked.keys:
        check(key not in names, 7)
        names.append(key)
        keys.append(column_of(table, key))
        check_count(asked, len(names))
    for call in asked.calls:
        # A name after AS stands behind the argument, and the function's own name before it.
        is_named_later = call.name != call.function
        check(is_named_later or call.name not in names, 7)
        check_count(asked, len(names) + 1)
        functions.append(function_over(table, call))
        check(call.name not in names, 7)
        names.append(call.name)
    tests = tests_of(table, asked.tests)
    return ViewMade(statement.name, number, width, tuple(keys), tuple(functions), tests, tuple(names), statement.only)


def check_count(asked: Fold, count: int) -> None:
    """That a SELECT list isn't too long, at one of its columns."""
    check(count <= MOST_COLUMNS, 21, f" count {1 + len(asked.keys) + len(asked.calls)}")


def width_over(table: Table, asked: Fold) -> Width:
    check_step(asked.bucket.width)
    check(table.number_of(asked.bucket.column) == 0, 8)
    offset = asked.bucket.offset or 0
    check(0 <= offset < asked.bucket.width, 14)
    return Width(asked.bucket.width, offset)


def function_over(table: Table, call: grammar.Call) -> Function:
    return Function(call.function, column_of(table, call.column) if call.column else None)


def columns_over(table: Table, asked: Fold) -> tuple[list[int], list[Function]]:
    """Keys and functions of a query over a hypertable."""
    keys: list[int] = []
    functions: list[Function] = []
    for key in asked.keys:
        keys.append(column_of(table, key))
        check_count(asked, 1 + len(keys))
    for call in asked.calls:
        check_count(asked, 2 + len(keys) + len(functions))
        functions.append(function_over(table, call))
    return keys, functions


def answer_of(moment: Moment, asked: grammar.SelectAll | Fold) -> Answer:
    """The answer of a query."""
    check(moment.is_taken(asked.relation), 6)
    view = moment.view(asked.relation)
    if isinstance(asked, grammar.SelectAll):
        if view:
            return view_answer(moment, view[1], asked.tests)
        table = a_hypertable(moment, asked.relation)[1]
        return moment.answer_rows(table, tests_of(table, asked.tests))
    if asked.bucket.unit:
        return calendar_answer(moment, asked, asked.bucket.unit)
    if view:
        return rolled_answer(moment, view[1], asked)
    table = a_hypertable(moment, asked.relation)[1]
    width = width_over(table, asked)
    keys, functions = columns_over(table, asked)
    return Answer(lines_of(fold(moment.rows(table), width.start, keys, functions, tests_of(table, asked.tests))), [])


def view_answer(moment: Moment, view: View, tests: Sequence[grammar.Test]) -> Answer:
    """What an aggregate shows. Tests bound the starts of its buckets."""
    for test in tests:
        check(test.column == view.made.names[0], 8)
        check(test.comparison not in ("<>", IS_NULL, IS_NOT_NULL), 8)
    return moment.answer_view(view, [(test.comparison, test.number) for test in tests])


def calendar_answer(moment: Moment, asked: Fold, unit: str) -> Answer:
    table = a_hypertable(moment, asked.relation)[1]
    count = asked.bucket.width
    check(1 <= count <= MOST_UNITS, 29)
    check(unit in UNITS, 29)
    check(table.number_of(asked.bucket.column) == 0, 8)
    keys, functions = columns_over(table, asked)
    tests = tests_of(table, asked.tests)
    groups = fold(moment.rows(table), lambda time: calendar_bucket(count, unit, time), keys, functions, tests)
    return Answer(lines_of(groups), [])


class Rolled(NamedTuple):
    """The output columns of an aggregate by their names, as a roll-up sees them."""

    bucket: str
    keys: tuple[str, ...]
    functions: dict[str, str]


def columns_of_view(view: View) -> Rolled:
    made = view.made
    keys = made.names[1 : 1 + len(made.keys)]
    functions = dict(zip(made.names[1 + len(keys) :], [it.name for it in made.functions]))
    return Rolled(made.names[0], keys, functions)


def rolled_answer(moment: Moment, view: View, asked: Fold) -> Answer:
    columns, own = columns_of_view(view), view.made.width
    check_step(asked.bucket.width)
    check(asked.bucket.width % own.step == 0, 14)
    check(asked.bucket.column == columns.bucket, 8)
    offset = asked.bucket.offset or 0
    check(0 <= offset < asked.bucket.width and (offset - own.offset) % own.step == 0, 14)
    keys: list[int] = []
    for key in asked.keys:
        check(key in columns.keys, 8)
        keys.append(1 + columns.keys.index(key))
        check_count(asked, 1 + len(keys))
    calls: list[tuple[str, int]] = []
    for call in asked.calls:
        check_count(asked, 2 + len(keys) + len(calls))
        check(call.column != "", 28)
        check(call.column in columns.functions, 8)
        check(columns.functions[call.column] in ADDS_UP.get(call.function, ()), 28)
        calls.append((call.function, view.made.names.index(call.column)))
    tests = []
    for test in asked.tests:
        check(test.column in columns.keys, 8)
        tests.append(Test(1 + columns.keys.index(test.column), test.comparison, test.number))
    return moment.answer_rolled(view, Width(asked.bucket.width, offset), keys, calls, tests)
