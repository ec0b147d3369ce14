"""What an aggregate shows, asked of a copy of its journal: whatever a question says, it changes nothing."""
from __future__ import annotations

import re
from collections.abc import Callable
from dataclasses import dataclass
from pathlib import Path

from . import programs
from .aggregates import Aggregate, aggregate_in, checked_text, journal_of
from .dropped import parted
from .follower import open_snapshot
from .journal import LEAST_TIME, MOST_TIME
from .messages import Trouble
from .names import Names, Unit
from .refusals import explanation
from .replies import Range, Reply, replies_in
from .schema import Output, Schema, learn_folder, source_of
from .statements import Line
from .translation import NotSent, Translator

QUERIES = (["select", "*"], ["select", "time_bucket"])
POSITION = re.compile(r"ANSWER @(\d+)")


@dataclass(frozen=True)
class Shown:
    """The rows of an answer, with its columns. `late` are the stale ranges that a refresh mends, `dropped` those in
    which rows were dropped by `drop_chunks`. `aggregate` is missing if a query was asked."""

    title: str
    output: Output
    rows: list[list[str]]
    late: list[Range]
    dropped: list[Range]
    position: int
    watermark: int | None = None
    aggregate: Aggregate | None = None


def answered(reply: Reply) -> Reply:
    """A reply that must be an answer."""
    if reply.fault():
        # The session in front of a head has the program's own name.
        raise Trouble("\n".join([*reply.texts(), *explanation(reply, is_numbered=False)]))
    if not reply.is_answer():
        raise Trouble("a picture is drawn of a SELECT")
    return reply


def replies_to(statements: list[str], folder: Path) -> list[Reply]:
    """The replies to statements of one session."""
    script = "".join(f"tsq: {statement}\n" for statement in statements).encode()
    status, output = programs.call(["run"], script, str(folder))
    replies = list(replies_in(output, script))
    if len(replies) < len(statements):
        raise Trouble(f"tsctl gave no answer, and ended with {status}")
    return replies


def watermark_question(aggregate: Aggregate) -> list[str]:
    """Statements of which the third one tells the watermark.

    No statement names it. But a commit with a row at the least time and one at the greatest makes every bucket below
    the watermark stale, and none above it, so the last stale range ends there.
    """
    rows = [[str(time) if name == aggregate.time else "0" for name in aggregate.columns]
            for time in (LEAST_TIME, MOST_TIME)]  # fmt: skip
    values = ", ".join(f"({', '.join(row)})" for row in rows)
    insert = f"INSERT INTO {aggregate.table} VALUES {values}"
    return ["BEGIN", insert, f"SELECT * FROM {aggregate.name}", "ROLLBACK"]


def select_text(aggregate: Aggregate, low: int | None, high: int | None, tests: str) -> str:
    """The question for the buckets that start from one time on and before another, and that pass tests."""
    bounds = [] if low is None else [f"{aggregate.bucket} >= {low}"]
    bounds += [] if high is None else [f"{aggregate.bucket} < {high}"]
    where = " AND ".join(bounds + [checked_text(tests, "--where")] * bool(tests))
    return f"SELECT * FROM {aggregate.name}" + f" WHERE {where}" * bool(where)


Translate = Callable[[str], str]


def translator(folder: str | Path, names: Names, unit: Unit | None) -> Translate:
    """A function that lets dates, lengths of time and texts of keys in a statement be numbers, as in scripts."""
    schema = Schema()
    learn_folder(schema, Path(folder))
    found = Translator(schema, names, unit)

    def translate(statement: str) -> str:
        try:
            return found.translated(statement)
        except NotSent as why:
            raise Trouble(str(why)) from None

    return translate


def position_of(reply: Reply) -> int:
    """The position at which an answer was given."""
    found = POSITION.match(reply.texts()[0])
    return int(found[1]) if found else 0


def ask(
    folder: str, name: str, low: int | None = None, high: int | None = None, tests: str = "",
    translate: Translate = str,
) -> Shown:  # fmt: skip
    """What an aggregate shows of some of its buckets, and its watermark. Tests may have what `translate` translates."""
    # The copy may lack what is before an image, which tells what was dropped: so it isn't asked for that.
    aggregate = aggregate_in(folder, name)
    question = translate(select_text(aggregate, low, high, tests))
    with open_snapshot(folder) as copy:
        replies = replies_to([question, *watermark_question(aggregate)], copy.folder)
    reply = answered(replies[0])
    dropped, late = parted(reply.stale, aggregate.kept_from)
    return Shown(aggregate.name, aggregate.output(), reply.rows, late, dropped, position_of(reply),
                 watermark_of(replies[1:]), aggregate)  # fmt: skip


def watermark_of(replies: list[Reply]) -> int | None:
    """The watermark, by the replies to its question."""
    probe = answered(replies[2])
    return probe.stale[-1][1] if probe.stale else None


def ask_query(folder: str, title: str, translate: Translate = str) -> Shown:
    """What a query by buckets answers. It is one statement, since it has no line's end. Of a roll-up over an aggregate,
    the stale ranges are those of the aggregate itself."""
    query = translate(checked_text(title, "--query"))
    tokens = Line(1, None, query).tokens()
    if tokens[:2] not in QUERIES:
        raise Trouble("--query is a SELECT of an aggregate, or by time_bucket; --by adds up by the calendar")
    journal = journal_of(folder)
    with open_snapshot(folder) as copy:
        reply = answered(replies_to([query], copy.folder)[0])
        schema = Schema()
        schema.learn_journal(journal)
        output, source = schema.output_of(tokens), source_of(tokens)
        if output is None or not output.width:
            raise Trouble("--query has no buckets to draw")
        if source not in schema.sources:
            return Shown(title, output, reply.rows, [], [], position_of(reply))
        aggregate = aggregate_in(folder, source)
        replies = replies_to([f"SELECT * FROM {source}", *watermark_question(aggregate)], copy.folder)
    dropped, late = parted(answered(replies[0]).stale, aggregate.kept_from)
    return Shown(title, output, reply.rows, late, dropped, position_of(reply), watermark_of(replies[1:]))
