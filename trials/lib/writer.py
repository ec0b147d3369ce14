"""Random lines of scripts: statements that mostly fit what was made before, and near misses of them."""
import random
from dataclasses import dataclass, field

FUNCTIONS = ("count", "sum", "min", "max", "avg")
COMPARISONS = ("=", "<>", "!=", "<", "<=", ">", ">=")
LIMIT_TIMES = (2**62 - 1, -(2**62), 2**62, -(2**62) - 1, 2**63 - 1, -(2**63))
BAD_NUMBERS = ("9223372036854775808", "-9223372036854775809", "99999999999999999999999")
WORDS = (
    "select from where and is not null insert into values delete create table materialized view with data no as group "
    "by call refresh cut snap finish begin read only commit rollback tick time_bucket calendar_bucket count sum min "
    "max avg bigint true false timescaledb continuous set alter older_than m c z time dev v b n"
).split()
MARKS = (
    "(", ")", ",", "*", "=", "<>", "!=", "<", "<=", ">", ">=", "=>", ".", ";", "'m'", "'", "#", "-", "\r", "\0", "\xe9",
    "1", "-1",
)


@dataclass
class View:
    """An aggregate as it was written: its output columns, its width and its offset."""

    name: str
    bucket: str
    keys: list[str]
    calls: list[tuple[str, str]]
    step: int
    offset: int


@dataclass
class Writer:
    """Writes lines. It keeps what was made if all of them took effect."""

    rng: random.Random
    tables: dict[str, list[str]] = field(default_factory=dict)
    hypers: set[str] = field(default_factory=set)
    views: dict[str, View] = field(default_factory=dict)
    events: int = 0
    clock: int = 0
    has_policies: bool = True
    care: float = 1.0
    blocks: dict[str, str] = field(default_factory=dict)
    phases: dict[str, str] = field(default_factory=dict)
    ticking: set[str] = field(default_factory=set)

    def begin_run(self) -> None:
        """Blocks and policies end with their run."""
        self.blocks.clear()
        self.phases.clear()
        self.ticking.clear()

    # ---- numbers

    def often(self, usual: str, *others: str, chance: float = 0.97) -> str:
        """The usual text, or rarely one of the others: less rarely in a statement that is written without care."""
        return usual if not others or self.rng.random() < chance * self.care else self.rng.choice(others)

    def time(self, chance: float = 0.985) -> str:
        usual = str(self.rng.randrange(-150, 400))
        return self.often(usual, *map(str, LIMIT_TIMES), *BAD_NUMBERS, "null", chance=chance)

    def value(self) -> str:
        usual = self.rng.choice([str(self.rng.randrange(-9, 30)), str(self.rng.randrange(4)), "NULL"])
        return self.often(usual, str(2**63 - 1), str(-(2**63)), "007", "-0", *BAD_NUMBERS, chance=0.96)

    def number(self) -> str:
        """A number to compare with, and rarely something else."""
        return self.often(str(self.rng.randrange(-9, 30)), self.value(), chance=0.95)

    def bound(self) -> str:
        usual = str(self.rng.randrange(-15, 40) * self.rng.choice([10, 10, 7]))
        return self.often(self.rng.choice([usual, usual, "NULL"]), *map(str, LIMIT_TIMES), *BAD_NUMBERS, chance=0.96)

    def step(self) -> str:
        usual = str(self.rng.choice([1, 5, 10, 10, 20, 25, 100, 1000]))
        return self.often(usual, "0", "-1", "1099511627776", "1099511627777", chance=0.95)

    # ---- names

    def table(self) -> str:
        usual = "m" if self.rng.random() < 0.7 or not self.hypers else self.rng.choice(sorted(self.hypers))
        return self.often(usual, "nowhere", *self.tables, *self.views, "M", chance=0.97)

    def view(self) -> str:
        usual = "c" if self.rng.random() < 0.5 or not self.views else self.rng.choice(sorted(self.views))
        return self.often(usual, "nowhere", *self.tables, chance=0.97)

    def columns(self, table: str) -> list[str]:
        return self.tables.get(table, ["time", "dev", "v"])

    def column(self, table: str) -> str:
        return self.often(self.rng.choice(self.columns(table)), "nothing", "time", "count", chance=0.95)

    def new_name(self, letter: str) -> str:
        usual = f"{letter}{self.rng.randrange(6)}"
        return self.often(usual, *self.tables, *self.views, "x" * 63, "x" * 64, chance=0.93)

    # ---- parts

    def tests(self, table: str, most: int = 2) -> str:
        found = []
        for _ in range(self.rng.randrange(most + 1)):
            column = self.column(table)
            if self.rng.random() < 0.2:
                found.append(f"{column} IS {self.rng.choice(['', 'NOT '])}NULL")
            else:
                number = self.time() if column == "time" else self.number()
                found.append(f"{column} {self.rng.choice(COMPARISONS)} {number}")
        return " WHERE " + " AND ".join(found) if found else ""

    def fold(self, table: str, view: View | None = None) -> str:
        """A fold over a hypertable. What it shows is noted at the aggregate that it defines."""
        rng = self.rng
        step = self.step()
        offset = self.often(str(rng.randrange(int(step))) if 0 < int(step) < 2000 else "0", "-1", step)
        column = self.often("time", *self.columns(table), chance=0.97)
        bucket = f"time_bucket({step}, {column}" + (f", {offset}" if rng.random() < 0.4 else "") + ")"
        name = rng.choice(["b", "b", "x", ""])
        keys = [self.column(table) for _ in range(rng.choice([0, 0, 1, 1, 2]))]
        calls = [self.call(table) for _ in range(rng.choice([1, 1, 2, 3]) if rng.random() < 0.99 else 16)]
        shown = [f"{text} AS a{place}" for place, text in enumerate(calls)]
        if calls[0] == "count(*)":
            shown[0] = calls[0]
        if view:
            view.step, view.offset = int(step), int(offset) if ", " + offset + ")" in bucket else 0
            view.bucket, view.keys = name or "time_bucket", keys
            names = [text.split(" AS ")[-1].split("(")[0] for text in shown]
            view.calls = [(text.split("(")[0], it) for text, it in zip(calls, names)]
        head = bucket + (f" AS {name}" if name else "")
        items = [rng.choice([name or "time_bucket", "1"])]
        items += [rng.choice([key, str(2 + at)]) for at, key in enumerate(keys)]
        if rng.random() < 0.02:
            items.append("1")
        return f"SELECT {', '.join([head, *keys, *shown])} FROM {table}{self.tests(table)} GROUP BY {', '.join(items)}"

    def call(self, table: str) -> str:
        return self.rng.choice(["count(*)", f"{self.rng.choice(FUNCTIONS)}({self.column(table)})"])

    # ---- statements that make relations

    def create_table(self) -> str:
        rng, name = self.rng, self.new_name("t")
        count = rng.choice([1, 2, 3, 3, 4]) if rng.random() < 0.97 else rng.choice([16, 17])
        columns = ["time", "dev", "v", *[f"c{at}" for at in range(14)]][:count]
        rng.shuffle(columns)
        if rng.random() < 0.03:
            columns.append(columns[0])
        self.tables.setdefault(name, columns)
        self.events += 1
        shown = [column + " BIGINT" + rng.choice(["", "", " NOT NULL"]) for column in columns]
        return f"CREATE TABLE {name} ({', '.join(shown)})"

    def create_hypertable(self) -> str:
        plain = sorted(set(self.tables) - self.hypers)
        name = self.often(self.rng.choice(plain) if plain else "m", *self.tables, *self.views, "nowhere", chance=0.9)
        interval = self.often(self.rng.choice(["10", "100", "1000"]), "0", str(2**50), str(2**50 + 1))
        if "time" in self.tables.get(name, []):
            self.hypers.add(name)
        self.events += 1
        column = self.often("time", "v", chance=0.95)
        return f"SELECT create_hypertable('{name}', '{column}', chunk_time_interval => {interval})"

    def create_view(self) -> str:
        name, table = self.new_name("c"), self.table()
        view = View(name, "b", [], [], 10, 0)
        fold = self.fold(table, view)
        self.views.setdefault(name, view)
        option = ", timescaledb.materialized_only = "
        only = self.rng.choice(["", option + "true", option + "false"])
        data = self.rng.choice(["", " WITH DATA", " WITH NO DATA"])
        self.events += 1 if "NO" in data else 3
        return f"CREATE MATERIALIZED VIEW {name} WITH (timescaledb.continuous{only}) AS {fold}{data}"

    def alter(self) -> str:
        self.events += 1
        flag = self.rng.choice(["true", "false"])
        return f"ALTER MATERIALIZED VIEW {self.view()} SET (timescaledb.materialized_only = {flag})"

    # ---- statements on rows

    def insert(self) -> str:
        rng, table = self.rng, self.table()
        columns = list(self.columns(table))
        head, chance = "", 0.985
        if rng.random() < 0.25:
            # A column that is left out may be a mistake, and so may a time in the same row.
            chance = 0.85
            rng.shuffle(columns)
            columns = columns[: rng.randrange(1, len(columns) + 1)]
            if rng.random() < 0.1:
                columns.append(self.column(table))
            head = f" ({', '.join(columns)})"
        count = rng.choice([1, 1, 2, 3, 6]) if rng.random() < 0.995 else rng.choice([1000, 1001])
        rows = [self.row(columns, chance) for _ in range(count)]
        self.events += 1
        return f"INSERT INTO {table}{head} VALUES {', '.join(rows)}"

    def row(self, columns: list[str], chance: float = 0.985) -> str:
        values = [self.time(chance) if column == "time" else self.value() for column in columns]
        if self.rng.random() < 0.01:
            values.append("1")
        return f"({', '.join(values)})"

    def delete(self) -> str:
        self.events += 1
        table = self.table()
        return f"DELETE FROM {table}{self.tests(table)}"

    def drop_chunks(self) -> str:
        self.events += 1
        word = self.rng.choice(["", "older_than => "])
        bound = self.often(str(self.rng.randrange(-100, 250)), *map(str, LIMIT_TIMES))
        return f"SELECT drop_chunks('{self.table()}', {word}{bound})"

    # ---- questions

    def select_table(self) -> str:
        table = self.table()
        return f"SELECT * FROM {table}{self.tests(table)}"

    def select_view(self) -> str:
        name = self.view()
        view = self.views.get(name)
        column = self.often(view.bucket if view else "b", "dev", "time", chance=0.96)
        comparisons = ("=", "<", "<=", ">", ">=", ">=")
        tests = [f"{column} {self.rng.choice(comparisons)} {self.time()}" for _ in range(self.rng.randrange(3))]
        tests = [self.often(test, f"{column} <> 1", f"{column} IS NULL") for test in tests]
        return f"SELECT * FROM {name}" + (" WHERE " + " AND ".join(tests) if tests else "")

    def question(self) -> str:
        return self.fold(self.table())

    def roll_up(self) -> str:
        rng, name = self.rng, self.view()
        view = self.views.get(name) or View(name, "b", [], [("count", "n")], 10, 0)
        step = view.step * rng.choice([1, 2, 3, 10]) if rng.random() < 0.93 else view.step + 1
        fitting = (view.offset + view.step * rng.randrange(3)) % max(step, 1)
        offset = fitting if rng.random() < 0.9 else rng.randrange(40)
        keys = [key for key in view.keys if rng.random() < 0.5] if rng.random() < 0.95 else ["v"]
        fits = {"count": "sum", "sum": "sum", "min": "min", "max": "max"}
        chosen = [(function, name) for function, name in view.calls if function in fits or rng.random() < 0.1]
        calls = [f"{fits.get(function, 'sum')}({name})" for function, name in chosen]
        calls = calls[: rng.randrange(1, 4)] or ["count(*)"]
        calls = [self.often(call, "count(*)", "avg(n)", "min(b)", chance=0.95) for call in calls]
        where = ""
        if view.keys and rng.random() < 0.3:
            where = f" WHERE {rng.choice(view.keys)} {rng.choice(COMPARISONS)} {self.number()}"
        items = ["x", *keys]
        bucket = self.often(view.bucket, "time", chance=0.97)
        shown = [f"time_bucket({step}, {bucket}, {offset}) AS x", *keys, *calls]
        return f"SELECT {', '.join(shown)} FROM {name}{where} GROUP BY {', '.join(items)}"

    def calendar(self) -> str:
        table = self.often(self.table(), *self.views, chance=0.97)
        unit = self.often(self.rng.choice(["day", "week", "month", "year"]), "hour", "DAY")
        count = self.often(str(self.rng.choice([1, 1, 2, 3, 7, 1200])), "0", "1201", chance=0.96)
        key = self.rng.choice(["", ", dev"])
        shown = f"calendar_bucket({count}, '{unit}', time) AS d{key}, count(*)"
        return f"SELECT {shown} FROM {table}{self.tests(table)} GROUP BY d{key}"

    # ---- refreshes, blocks and policies

    def window(self) -> str:
        """The bounds of a refresh, which mostly hold a bucket."""
        low = self.rng.randrange(-15, 35) * 10
        high = low + self.rng.randrange(1, 30) * self.rng.choice([10, 10, 7])
        usual = self.rng.choice([f"{low}, {high}", f"{low}, {high}", f"NULL, {high}", f"{low}, NULL", "NULL, NULL"])
        return self.often(usual, f"{self.bound()}, {self.bound()}", chance=0.9)

    def refresh(self) -> str:
        self.events += 2
        return f"CALL refresh_continuous_aggregate('{self.view()}', {self.window()})"

    def phase(self, session: str) -> str:
        """The next phase of the session's refresh, or one of another session's."""
        kind = {"": "CUT", "CUT": "SNAP", "SNAP": "FINISH", "FINISH": "CUT"}[self.phases.get(session, "")]
        kind = self.often(kind, "CUT", "SNAP", "FINISH", chance=0.85)
        self.phases[session] = kind
        number = "" if self.rng.random() < 0.8 else f" {max(0, self.events - self.rng.randrange(12))}"
        self.events += kind != "SNAP"
        if kind == "CUT":
            return f"REFRESH CUT '{self.view()}', {self.window()}"
        return f"REFRESH {kind}{number}"

    def block(self, session: str) -> str:
        """What begins a block, or ends it."""
        if self.often("", "other", chance=0.95):
            return self.rng.choice(["BEGIN", "BEGIN READ ONLY", "COMMIT", "ROLLBACK"])
        if self.blocks.pop(session, ""):
            return self.rng.choice(["COMMIT", "COMMIT", "COMMIT", "ROLLBACK"])
        self.blocks[session] = self.rng.choice(["BEGIN", "BEGIN", "BEGIN READ ONLY"])
        return self.blocks[session]

    def policy(self, session: str) -> str:
        rng = self.rng
        self.ticking.add(session)
        interval = self.often(str(rng.choice([1, 5, 20])), "0", "1125899906842625")
        if rng.random() < 0.5:
            start = self.often(rng.choice(["NULL", "100", "200", "1000"]), "-1", "5", "1125899906842624")
            end = self.often(rng.choice(["NULL", "0", "10"]), "-1", "1125899906842625")
            return (
                f"SELECT add_continuous_aggregate_policy('{self.view()}', start_offset => {start}, "
                f"end_offset => {end}, schedule_interval => {interval})"
            )
        after = self.often(str(rng.choice([0, 100, 300])), "-1", "1125899906842625")
        rest = rng.choice(["", f", schedule_interval => {interval}"])
        return f"SELECT add_retention_policy('{self.table()}', drop_after => {after}{rest})"

    def tick(self) -> str:
        self.clock += self.rng.choice([1, 5, 5, 20, 50])
        return f"TICK {self.often(str(self.clock), *map(str, LIMIT_TIMES), str(self.clock - 50), chance=0.95)}"

    def statement(self, session: str) -> str:
        """Any statement, the usual ones more often, and in a block those that it allows."""
        rng, block = self.rng, self.blocks.get(session, "")
        questions = [
            (self.select_table, 5), (self.select_view, 12), (self.question, 8), (self.roll_up, 6), (self.calendar, 2),
        ]
        changes = [(self.insert, 20), (self.delete, 5), (self.drop_chunks, 2)]
        ends = [(lambda: self.block(session), 25 if block else 4)]
        others = [
            (self.refresh, 8),
            (lambda: self.phase(session), 35 if self.phases.get(session) in ("CUT", "SNAP") else 8),
            (self.alter, 2), (self.create_table, 1),
            (self.create_hypertable, 1), (self.create_view, 2),
            (lambda: self.policy(session), 3 * self.has_policies),
            (self.tick, (15 if session in self.ticking else 2) * self.has_policies),
        ]
        kinds = questions + ends
        if block != "BEGIN READ ONLY" or rng.random() < 0.1:
            kinds += changes
        if not block or rng.random() < 0.1:
            kinds += others
        return rng.choices([kind for kind, _ in kinds], [weight for _, weight in kinds])[0]()

    # ---- lines

    def changed(self, statement: str) -> str:
        """A near miss of a statement: a token left out, doubled or changed, or a byte."""
        rng, parts = self.rng, statement.replace("(", " ( ").replace(")", " ) ").replace(",", " , ").split()
        at = rng.randrange(len(parts))
        kind = rng.randrange(5)
        if kind == 0:
            del parts[at]
        elif kind == 1:
            parts.insert(at, parts[at])
        elif kind == 2:
            parts[at] = rng.choice(rng.choice([WORDS, MARKS, BAD_NUMBERS, ("7", "-3", "count(*)", "--")]))
        elif kind == 3:
            parts.insert(at, rng.choice(rng.choice([WORDS, MARKS])))
        else:
            text = " ".join(parts)
            place = rng.randrange(len(text))
            return text[:place] + rng.choice(["", rng.choice(MARKS), text[place].swapcase()]) + text[place + 1 :]
        return rng.choice([" ", " ", "\t", "  "]).join(parts)

    def line(self, session: str) -> bytes:
        rng = self.rng
        self.care = 1.0 if rng.random() > 0.12 else 0.6
        statement = self.statement(session)
        if rng.random() < 0.08:
            statement = self.changed(statement)
        head = f"{session}: "
        if rng.random() < 0.01:
            others = ["", "A: ", f"{session} : ", f" {session}:", f"{session}_longer_than_16: ", "\t" + head, "\xe9: "]
            head = rng.choice(others)
        tail = "" if rng.random() < 0.9 else rng.choice([";", "   ", " ; -- \xe9", "--", "\r", " \r--", "\r\r"])
        if rng.random() < 0.002:
            # A line that is just short enough, or too long by a byte.
            tail += "--" + "x" * (rng.choice([65_534, 65_535]) - len(head + statement + tail))
        return (head + statement + tail).encode("latin-1")

    def setup(self, session: str) -> list[bytes]:
        """A hypertable and an aggregate over it, with a few rows, and in some lives one more hypertable."""
        self.tables["m"] = ["time", "dev", "v"]
        self.hypers.add("m")
        self.views["c"] = View("c", "b", ["dev"], [("count", "n"), ("sum", "s"), ("max", "most")], 10, 0)
        only = self.rng.choice(["", ", timescaledb.materialized_only = false"])
        self.events += 4
        lines = [
            "CREATE TABLE m (time BIGINT NOT NULL, dev BIGINT, v BIGINT)",
            "SELECT create_hypertable('m', 'time', chunk_time_interval => 100)",
            f"CREATE MATERIALIZED VIEW c WITH (timescaledb.continuous{only}) AS SELECT time_bucket(10, time) AS b, "
            "dev, count(*) AS n, sum(v) AS s, max(v) AS most FROM m GROUP BY b, dev WITH NO DATA",
            f"INSERT INTO m VALUES {', '.join(self.row(self.tables['m']) for _ in range(5))}",
        ]
        if self.rng.random() < 0.25:
            self.tables["t0"] = ["k", "time", "w"]
            self.hypers.add("t0")
            self.events += 2
            lines.append("CREATE TABLE t0 (k BIGINT NOT NULL, time BIGINT NOT NULL, w BIGINT)")
            lines.append("SELECT create_hypertable('t0', 'time', chunk_time_interval => 10)")
        return [f"{session}: {line}".encode() for line in lines]

    def limits(self, session: str) -> list[bytes]:
        """Lines, lists and rows that are just short enough, or too long by one."""
        columns, rows = [f"c{at} BIGINT" for at in range(17)], ["(1, 1, 1)"] * 1001
        lines = [
            f"CREATE TABLE l0 ({', '.join(columns[1:])})", f"CREATE TABLE l1 ({', '.join(columns)})",
            f"INSERT INTO m VALUES {', '.join(rows[1:])}", f"INSERT INTO m VALUES {', '.join(rows)}",
            f"SELECT time_bucket(10, time){', count(*)' * 15} FROM m GROUP BY 1",
            f"SELECT time_bucket(10, time){', count(*)' * 16} FROM m GROUP BY 1",
            f"CREATE TABLE {'n' * 63} (time BIGINT)", f"CREATE TABLE {'n' * 64} (time BIGINT)",
            "BEGIN READ ONLY --" + "x" * (65_518 - len(session) - 2), "COMMIT --" + "x" * (65_528 - len(session) - 2),
            f"SELECT time_bucket({2**40}, time), sum(v) FROM m GROUP BY 1",
            f"SELECT time_bucket({2**40 + 1}, time), sum(v) FROM m GROUP BY 1",
        ]
        return [f"{session}: {line}".encode() for line in self.rng.sample(lines, len(lines))]

    def many_rows(self, session: str) -> list[bytes]:
        """So many rows that threads share the work on them."""
        rows = [", ".join(f"({1000 * part + at}, {at % 7}, {at})" for at in range(1000)) for part in range(12)]
        lines = [f"INSERT INTO m VALUES {part}" for part in rows]
        lines.append("CALL refresh_continuous_aggregate('c', NULL, NULL)")
        lines.append("SELECT time_bucket(5000, time), sum(v) FROM m GROUP BY 1")
        return [f"{session}: {line}".encode() for line in lines]

    def lines(self, count: int, sessions: list[str]) -> list[bytes]:
        """Lines of sessions. A session goes on with the next line more often than another one begins."""
        found: list[bytes] = []
        session = self.rng.choice(sessions)
        for _ in range(count):
            if self.rng.random() < 0.5:
                session = self.rng.choice(sessions)
            is_blank = self.rng.random() < 0.01
            found.append(self.rng.choice([b"", b" \t", b"-- words", b"\r"]) if is_blank else self.line(session))
        return found
