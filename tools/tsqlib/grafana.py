"""The requests of Grafana's JSON data sources: what may be drawn, time series and tables, stale and dropped ranges as
regions.

It answers those of `simpod-json-datasource`, with its later versions (`/metrics`), and of `simple-json-datasource`.
"""
from __future__ import annotations

from typing import Any

from .answers import cells_for_programs
from .samples import FirstRows
from .views import MOST_POINTS, Question, Refused, Views, dumped

MOST_TARGETS = 64


class Grafana:
    """Answers them by the views of a server."""

    def __init__(self, views: Views) -> None:
        self.views = views

    def search(self, _asked: Any) -> bytes:
        """What may be drawn: a column of an aggregate, or all of it as a table."""
        return dumped(self.names())

    def metrics(self, _asked: Any) -> bytes:
        """The same, for later versions."""
        return dumped([{"label": name, "value": name} for name in self.names()])

    def names(self) -> list[str]:
        schema = self.views.sessions.schema
        columns = {view: schema.outputs[view] for view in sorted(schema.sources)}
        return [f"{view}.{name}" for view, output in columns.items() for name in output.names[1 + output.keys :]]

    def query(self, asked: Any) -> bytes:
        """The time series, or the tables, of the targets of a panel."""
        targets = asked.get("targets") if isinstance(asked, dict) else None
        if not isinstance(targets, list) or len(targets) > MOST_TARGETS:
            raise Refused(400, f"wanted are up to {MOST_TARGETS} targets")
        found: list[Any] = []
        for target in targets:
            name = target.get("target") if isinstance(target, dict) else None
            if not isinstance(name, str) or not name or target.get("hide"):
                continue
            view, _, column = name.partition(".")
            is_table = target.get("type") == "table" or asked_format(target) == "table"
            found += [self.table(view, asked)] if is_table else self.series(view, column, asked)
        return dumped(found)

    def bounds(self, view: str, asked: Any) -> tuple[Question, int, int]:
        """The buckets that lie in the range of the panel, in part or whole."""
        span = asked.get("range") if isinstance(asked, dict) else None
        output = self.views.known(view)
        ends = [span.get(name) for name in ("from", "to")] if isinstance(span, dict) else []
        texts = [end for end in ends if isinstance(end, str)]
        if len(texts) < 2:
            raise Refused(400, "wanted is a range with its ends `from` and `to`, as dates")
        low, high = map(self.views.time, texts)
        return Question(view, low - (output.width or 1) + 1, high), low, high

    def series(self, view: str, column: str, asked: Any) -> list[dict[str, Any]]:
        """A line for each list of keys, as pairs of a value and the start of its bucket."""
        question, _, _ = self.bounds(view, asked)
        output = self.views.known(view)
        column = column or output.names[1 + output.keys]
        if column not in output.names[1 + output.keys :]:
            raise Refused(400, f"{view} has no column {column[:63]} to draw")
        most = asked.get("maxDataPoints")
        # A cell has up to four points.
        cells = min(max(most // 4, 1), MOST_POINTS) if isinstance(most, int) else MOST_POINTS
        samples = self.views.samples(output, [column], cells)
        with self.views.sessions.turns:
            self.views.answer(question, output, samples.take)
        milliseconds, names = self.views.milliseconds, output.names[1 : 1 + output.keys]
        found = []
        for keys, (points,) in samples.points():
            shown = zip(names, self.views.dictionary.texts(output, keys))
            title = ", ".join([f"{view}.{column}", *(f"{name} {key}" for name, key in shown)])
            found.append({"target": title, "datapoints": [[value, milliseconds(at)] for at, value in points]})
        return found

    def table(self, view: str, asked: Any) -> dict[str, Any]:
        """The rows as a table, with columns that say whether their buckets are stale, or of dropped rows."""
        question, _, _ = self.bounds(view, asked)
        output, keep = self.views.known(view), FirstRows(self.views.most_rows)
        with self.views.sessions.turns:
            told = self.views.parted(self.views.answer(question, output, keep))
        names, rows = cells_for_programs(told.reply, output, self.views.dictionary.style())
        kinds = ["time" if place in output.times else "number" for place in range(len(output.names))]
        kinds += ["string"] * (len(names) - len(kinds))
        columns = [{"text": name, "type": kind} for name, kind in zip(names, kinds)]
        cells = [[cell_of(text, kind) for text, kind in zip(row, kinds)] for row in rows]
        times = [place for place, kind in enumerate(kinds) if kind == "time"]
        for row, shown in zip(cells, told.reply.rows):
            for place in times:
                row[place] = None if shown[place] == "null" else self.views.milliseconds(int(shown[place]))
        return {"type": "table", "columns": columns, "rows": cells}

    def annotations(self, asked: Any) -> bytes:
        """The stale ranges of an aggregate, or of all, and those of dropped rows, as regions."""
        wanted = asked.get("annotation") if isinstance(asked, dict) else None
        name = wanted.get("query") if isinstance(wanted, dict) else None
        views = [name.strip()] if isinstance(name, str) and name.strip() else sorted(self.views.sessions.schema.sources)
        return dumped([region | {"annotation": wanted} for view in views for region in self.regions(view, asked)])

    def regions(self, view: str, asked: Any) -> list[dict[str, Any]]:
        """What is stale of an aggregate, and what it keeps of dropped rows, which no refresh may touch."""
        question, first, end = self.bounds(view, asked)
        with self.views.sessions.turns:
            reply = self.views.parted(self.views.answer(question, self.views.known(view), FirstRows(0))).reply
        kinds = (("dropped", "has dropped rows", "keeps what it showed of rows that were dropped here", reply.dropped),
                 ("stale", "is stale", "is out of date here", reply.stale))  # fmt: skip
        found = []
        for tag, title, text, ranges in kinds:
            for low, high in ranges:
                start = self.views.milliseconds(first if low is None else max(first, low))
                stop = self.views.milliseconds(min(high, end))
                found.append({"time": start, "timeEnd": stop, "isRegion": True, "title": f"{view} {title}",
                              "text": f"{view} {text}", "tags": [tag, view]})  # fmt: skip
        return found


def asked_format(target: dict[str, Any]) -> Any:
    """The format that later versions ask for, in the payload of a target."""
    payload = target.get("payload")
    return payload.get("format") if isinstance(payload, dict) else None


def cell_of(text: str, kind: str) -> Any:
    """A cell as a value of JSON."""
    if text == "null":
        return None
    if kind != "number":
        return text
    return float(text) if "." in text else int(text)
