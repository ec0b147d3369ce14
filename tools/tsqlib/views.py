"""What clients of `tsq serve` read of aggregates: rows, pictures, and what there is, as JSON or CSV.

Answers are read in a turn, and written after it: nobody waits for the JSON of another one.
"""
from __future__ import annotations

import json
import re
import time
from typing import Any, NamedTuple

from .answers import Style, cells_for_programs, csv_lines, json_list, json_rows, literal, range_cells
from .cells import UNITS
from .dictionary import Dictionary
from .dropped import with_drops
from .journal import LEAST_TIME, MOST_TIME, NAME
from .refusals import explanation
from .replies import Keep, Range, Reply
from .samples import FirstRows, Samples
from .schema import Output, source_of
from .sessions import Sessions, Told
from .turns import Recent
from .values import Bad, time_of

MOST_TESTS = 2000
# Cells of a column, and of all columns of a picture.
MOST_POINTS = 2000
MOST_DRAWN = 8000
# A picture is recent for so many times what it took.
SHARE = 3
# Rows in the table below a picture.
TABLE_ROWS = 100
TABLE_PLACES = 3
PRINTABLE = re.compile(r"[ -~]*")
WHOLE = re.compile(r"-?\d{1,19}")


class Refused(Exception):
    """A request that isn't followed: the status of HTTP, and why in words."""

    def __init__(self, status: int, text: str) -> None:
        super().__init__(text)
        self.status = status
        self.text = text


class Question(NamedTuple):
    """Rows of an aggregate: those of buckets from one time on and before another one, and further tests."""

    view: str
    low: int | None = None
    high: int | None = None
    tests: str = ""

    def text(self, bucket: str) -> str:
        """The statement that asks for them."""
        low = [f"{bucket} >= {self.low}"] * (self.low is not None)
        high = [f"{bucket} < {self.high}"] * (self.high is not None)
        where = " AND ".join(low + high + [self.tests] * bool(self.tests))
        return f"SELECT * FROM {self.view}" + f" WHERE {where}" * bool(where)


class Answer(NamedTuple):
    """An answer, its columns, the watermark, and the start of the first bucket after all dropped rows."""

    told: Told
    output: Output
    watermark: int | None
    kept_from: int | None


# ---- as JSON and CSV


def dumped(value: Any) -> bytes:
    """The bytes of a JSON text."""
    return json.dumps(value, separators=(",", ":"), allow_nan=False).encode()


def bound_texts(ranges: list[Range]) -> list[list[str]]:
    """The ends of ranges as the reply has them, since numbers of JavaScript have 53 bits."""
    return [["min" if low is None else str(low), str(high)] for low, high in ranges]


def object_of(fields: dict[str, str]) -> str:
    """An object of JSON, whose values are JSON already."""
    return "{" + ", ".join(f"{json.dumps(name)}: {value}" for name, value in fields.items()) + "}"


def fields_of_rows(reply: Reply, output: Output, style: Style) -> dict[str, str]:
    """The rows, the stale ranges and those of dropped rows of an answer as values of JSON."""
    rows = json_rows(reply, output, style)
    ranges = {"stale": json_list(reply.stale, style), "dropped": json_list(reply.dropped, style)}
    return {"rows": "[" + ",\n ".join(rows) + "]"} | ranges


def csv_text(reply: Reply, output: Output, style: Style) -> str:
    """An answer as CSV."""
    return "".join(line + "\n" for line in csv_lines(reply, output, style))


def too_long(keep: FirstRows, what: str) -> str:
    """That an answer isn't given in part if that couldn't be told, as in CSV."""
    return f"{what} has {keep.count} rows, of which {keep.most} are given at most: ask for parts, or tsq serve --rows"


class Views:
    """Answers what clients read, by the sessions that they share."""

    def __init__(self, sessions: Sessions, dictionary: Dictionary, most_rows: int) -> None:
        self.sessions = sessions
        self.dictionary = dictionary
        self.most_rows = most_rows
        self.recent = Recent()

    # ---- what is asked

    def known(self, view: str) -> Output:
        """The columns of an aggregate, which must be there."""
        if not NAME.fullmatch(view.encode()) or view not in self.sessions.schema.sources:
            raise Refused(404, f"there is no aggregate {view[:63]}")
        output: Output = self.sessions.schema.outputs[view]
        return output

    def time(self, text: str) -> int:
        """A time as a request has it: a number, or a date if the unit of times is known."""
        if WHOLE.fullmatch(text):
            return max(LEAST_TIME, min(int(text), MOST_TIME))
        if not (unit := self.dictionary.unit()):
            raise Refused(400, f"{text[:40]}: dates are for tsq serve --times")
        try:
            return max(LEAST_TIME, min(time_of(text, unit), MOST_TIME))
        except Bad as bad:
            raise Refused(400, f"{text[:40]} {bad}") from None

    def question(self, view: str, query: dict[str, str]) -> Question:
        """What a request asks for."""
        tests = query.get("where", "")
        if len(tests) > MOST_TESTS or not PRINTABLE.fullmatch(tests):
            raise Refused(400, f"where: wanted are tests as of SQL, in up to {MOST_TESTS} printable characters")
        low, high = (self.time(query[name]) if query.get(name) else None for name in ("from", "to"))
        return Question(view, low, high, tests)

    def answer(self, question: Question, output: Output, keep: Keep) -> Told:
        """The answer, for one that has the turn."""
        told = self.sessions.answer(question.text(output.names[0]), keep)
        if told.reply.fault():
            raise Refused(400, "\n".join([*told.reply.heads, *explanation(told.reply, is_numbered=False)]))
        return told

    def read(self, question: Question, output: Output, keep: Keep) -> Answer:
        """The answer with its watermark and drops, for one that has the turn."""
        told = self.answer(question, output, keep)
        watermark = self.sessions.watermark(question.view)
        return Answer(self.parted(told), output, watermark, self.dictionary.roster.kept_from(question.view))

    def parted(self, told: Told) -> Told:
        """An answer with the stale ranges of dropped rows apart from the others."""
        self.dictionary.update()
        if told.output is None or not told.reply.stale:
            return told
        kept_from = self.dictionary.roster.kept_from(source_of(told.reply.line.tokens()))
        return told._replace(reply=with_drops(told.reply, kept_from, told.output.width))

    # ---- what there is

    def all(self) -> bytes:
        """The aggregates, with their columns."""
        self.dictionary.update()
        schema, found = self.sessions.schema, []
        for view, source in sorted(schema.sources.items()):
            output = schema.outputs[view]
            keys, values = output.names[1 : 1 + output.keys], output.names[1 + output.keys :]
            found.append({"name": view, "table": source, "bucket": output.names[0], "width": output.width, "keys": keys,
                          "columns": values, "times": [output.names[place] for place in sorted(output.times)],
                          "real_time": view not in schema.only,
                          "scales": self.dictionary.scales(output)})  # fmt: skip
        return dumped({"position": self.sessions.position, "aggregates": found})

    def rows(self, view: str, query: dict[str, str], form: str) -> bytes:
        """The rows of an aggregate, as many as may be told at once."""
        output, question = self.known(view), self.question(view, query)
        limit = query.get("limit", "")
        most = min(int(limit), self.most_rows) if limit.isdecimal() and len(limit) < 10 else self.most_rows
        keep = FirstRows(most)
        write = self.csv_of if form == "csv" else self.json_of
        key = ("rows", question, most, form)
        return self.sessions.look(
            key, lambda: self.read(question, output, keep), lambda answer: write(question.view, answer, keep)
        )

    def csv_of(self, view: str, answer: Answer, keep: FirstRows) -> bytes:
        """The rows as CSV."""
        if keep.next:
            raise Refused(413, too_long(keep, view))
        return csv_text(answer.told.reply, answer.output, self.dictionary.style()).encode()

    def json_of(self, view: str, answer: Answer, keep: FirstRows) -> bytes:
        """The rows as JSON, up to the last whole bucket."""
        reply = answer.told.reply
        reply = reply._replace(rows=keep.whole_buckets(reply.rows))
        ends = [answer.watermark, answer.kept_from, int(keep.next[0]) if keep.next else None]
        watermark, dropped, following = (literal(self.date(end)) for end in ends)
        fields = {"aggregate": json.dumps(view), "position": str(answer.told.position), "watermark": watermark,
                  "dropped_before": dropped, "count": str(keep.count), "given": str(len(reply.rows)),
                  "next": following}  # fmt: skip
        return object_of(fields | fields_of_rows(reply, answer.output, self.dictionary.style())).encode()

    def date(self, time: int | None) -> str:
        """A time as it is written in JSON."""
        return "null" if time is None else str(range_cells((time, 0), self.dictionary.style())[0])

    # ---- pictures

    def picture(self, view: str, query: dict[str, str]) -> bytes:
        """What the page draws of an aggregate, with the last rows of its table."""
        output, question = self.known(view), self.question(view, query)
        columns = columns_in(query.get("columns", ""), view, output.names[1 + output.keys :])
        points = query.get("points", "")
        most = min(MOST_POINTS, MOST_DRAWN // max(len(columns), 1))
        cells = min(int(points), most) if re.fullmatch(r"[1-9]\d{0,5}", points) else most
        wanted = query.get("keys", "")
        samples = self.samples(output, columns, cells, keys_of(wanted, output.keys))
        key = ("picture", question, *columns, cells, wanted)
        if "recent" in query and (body := self.recent.get(key)) is not None:
            return body
        begun = time.monotonic()
        body = self.sessions.look(
            key,
            lambda: self.read(question, output, samples.take),
            lambda answer: dumped(self.picture_of(question.view, columns, answer, samples)),
        )
        self.recent.keep(key, body, SHARE * (time.monotonic() - begun))
        return body

    def samples(
        self, output: Output, columns: list[str], cells: int, wanted: set[tuple[str, ...]] | None = None
    ) -> Samples:
        """The lines of some columns, which take the rows of an answer."""
        scales = self.dictionary.scales(output)
        drawn = [(output.names.index(column), scales.get(column, 0)) for column in columns]
        return Samples(output.keys, drawn, output.width or 1, max(cells, 2), TABLE_ROWS, wanted)

    def picture_of(self, view: str, columns: list[str], answer: Answer, samples: Samples) -> dict[str, Any]:
        """A picture as an object of JSON."""
        output, reply, texts = answer.output, answer.told.reply, self.dictionary.texts
        names, rows = cells_for_programs(reply, output, self.dictionary.style()._replace(places=TABLE_PLACES))
        lines = [{"keys": keys, "names": texts(output, keys), "points": points} for keys, points in samples.points()]
        others = [{"keys": keys, "names": texts(output, keys)} for keys in samples.others]
        return {
            "aggregate": view, "position": answer.told.position, "columns": columns, "width": output.width,
            "lines": lines, "others": others, "cell": samples.width, "count": samples.count,
            "stale": bound_texts(reply.stale), "dropped": bound_texts(reply.dropped),
            "watermark": None if answer.watermark is None else str(answer.watermark),
            "table": {"names": names, "rows": rows},
        }  # fmt: skip

    def milliseconds(self, time: int) -> int:
        """A time in milliseconds since 1970."""
        unit = self.dictionary.unit()
        if not unit:
            raise Refused(400, "times are plain numbers here: tsq serve --times says what they are")
        return time * 1000 // UNITS[unit]


def columns_in(text: str, view: str, names: list[str]) -> list[str]:
    """The columns that a request names, such as `mean,n`; all of them if it names none."""
    found = text.split(",") if text else names
    unknown = [name for name in found if name not in names]
    if unknown:
        raise Refused(404, f"{view} has no column {unknown[0][:63]}; there are {', '.join(names)}")
    return list(dict.fromkeys(found))


def keys_of(text: str, count: int) -> set[tuple[str, ...]] | None:
    """The lists of keys that a request wants, such as `1,7;2,null`; None for any."""
    if not text or not count:
        return None
    found = {tuple(part.split(",")) for part in text.split(";")}
    if any(len(keys) != count or not all(WHOLE.fullmatch(key) or key == "null" for key in keys) for keys in found):
        raise Refused(400, f"keys: wanted are lists of {count} numbers or null, such as {','.join('7' * count)}")
    return found
