"""Random lives: from a number, the steps of a whole life of a database."""
import math
import random

from life import Life, Step
from lines import MOST_SESSIONS
from tags import FIRST_TAG
from writer import Writer

NO_ROOM, NO_ENTRY, NO_ACCESS, IO_ERROR, INTERRUPTED, BUSY, CLOSED_PIPE, NO_MEMORY = 28, 2, 13, 5, 4, 11, 32, 12
# What may happen to a call, and about how often one is made for each line of a script.
FAULTS: list[tuple[str, list[tuple[str, int]], float]] = [
    ("open", [("error", NO_ACCESS), ("error", IO_ERROR), ("error", INTERRUPTED), ("kill", 0)], 0),
    ("lock", [("error", BUSY), ("error", INTERRUPTED), ("kill", 0)], 0),
    ("length", [("error", IO_ERROR), ("kill", 0)], 0),
    ("pread", [("error", IO_ERROR), ("error", INTERRUPTED), ("short", 0), ("torn", IO_ERROR), ("kill", 0)], 0.5),
    (
        "pwrite",
        [("error", IO_ERROR), ("error", NO_ROOM), ("error", INTERRUPTED), ("short", 0), ("torn", IO_ERROR), ("kill", 0),
         ("half", 0), ("done", 0)],
        1.5,
    ),
    ("sync", [("error", IO_ERROR), ("error", INTERRUPTED), ("torn", IO_ERROR), ("kill", 0), ("done", 0)], 1.5),
    ("read", [("error", IO_ERROR), ("error", INTERRUPTED), ("short", 0), ("torn", IO_ERROR), ("kill", 0)], 0.05),
    (
        "write",
        [("error", CLOSED_PIPE), ("error", NO_ROOM), ("error", INTERRUPTED), ("short", 0), ("torn", IO_ERROR),
         ("kill", 0), ("half", 0), ("done", 0)],
        1,
    ),
    ("memory", [("error", NO_MEMORY)], 15),
    ("thread", [("error", BUSY)], 0.05),
    ("room", [("error", NO_ROOM)], 60),
    ("limit", [("error", NO_MEMORY)], 0),
]
# How often which of these calls has a fault, by the word of the call of the program.
WEIGHTS = {
    "run": [1, 1, 1, 2, 6, 5, 2, 4, 6, 1, 2, 2], "par": [1, 1, 1, 1, 4, 4, 3, 4, 5, 2, 1, 2],
    "json": [1, 1, 1, 1, 4, 4, 3, 4, 5, 2, 1, 2],
    "checkpoint": [1, 1, 1, 2, 4, 4, 0, 2, 3, 0, 1, 1], "log": [2, 0, 2, 4, 0, 0, 0, 4, 4, 0, 0, 1],
    "check": [2, 0, 2, 4, 0, 0, 0, 4, 4, 0, 0, 1], "audit": [1, 0, 1, 3, 0, 0, 3, 3, 5, 0, 0, 2],
}
# From which KiB of memory to which: a little more than the program and the C library take.
LIMITS = (4_600, 5_300)
SESSIONS = ["a", "b", "c", "q"]
TAGGING = ("t1", "t2")


def fault(rng: random.Random, word: str, lines: int) -> str:
    """A plan of a fault over a script of so many lines."""
    call, actions, often = rng.choices(FAULTS, WEIGHTS[word])[0]
    action, number = rng.choice(actions)
    if call == "limit":
        return f"fault limit {rng.randrange(*LIMITS)} 0 {action} {number}"
    most = max(2.0, often * lines)
    if call == "write" and word != "run":
        # There all is written at the end.
        most = 1
    first = int(math.exp(rng.random() * math.log(most + 1))) if rng.random() < 0.5 else rng.randrange(1, int(most) + 2)
    if call == "read" and word == "audit":
        # Its first read only waits for a transcript, and passes over an error.
        first = max(first, 2)
    last = rng.choice([first, 10**9]) if action == "error" and number != INTERRUPTED else first
    return f"fault {call} {first} {last} {action} {number}"


def header_fault(rng: random.Random) -> str:
    """A plan of a fault at the write of a new journal's header, or at its sync."""
    call, actions, _ = rng.choice([it for it in FAULTS if it[0] in ("pwrite", "sync")])
    action, number = rng.choice(actions)
    return f"fault {call} 1 1 {action} {number}"


class Author:
    """Writes the steps of a life."""

    def __init__(self, seed: int) -> None:
        self.rng = random.Random(seed)
        self.writer = Writer(self.rng)
        self.tag = FIRST_TAG

    def lines(self, most: int, sessions: list[str]) -> tuple[bytes, ...]:
        return tuple(self.writer.lines(self.rng.randrange(1, most), sessions))

    def how(self, lines: int) -> str:
        kind = self.rng.randrange(10)
        if kind < 4:
            return fault(self.rng, "run", lines)
        return f"crash {self.rng.randrange(10**6)}" if kind < 7 else ""

    def first_how(self, lines: int) -> str:
        """What happens to the first run: a power cut or a fault, often one at the header. It is made up for later."""
        kind = self.rng.randrange(10)
        if kind < 5:
            return f"crash {self.rng.randrange(10**6)}"
        return fault(self.rng, "run", lines) if kind < 7 else header_fault(self.rng)

    def run(self) -> Step:
        sessions = self.rng.sample(SESSIONS, self.rng.randrange(1, 4))
        self.writer.begin_run()
        lines = self.lines(60, sessions)
        return Step("run", self.how(len(lines)), lines)

    def par(self) -> Step:
        word = self.rng.choice(["par", "json", "json"])
        # An audit says nothing of a run with policies.
        self.writer.has_policies = word == "par" or self.rng.random() < 0.2
        self.writer.begin_run()
        lines = self.lines(50, ["setup", *SESSIONS, "final"] if self.rng.random() < 0.4 else SESSIONS)
        self.writer.has_policies = True
        lines = self.with_tags(lines)
        return Step(word, fault(self.rng, word, len(lines)) if self.rng.random() < 0.4 else "", lines)

    def with_tags(self, lines: tuple[bytes, ...]) -> tuple[bytes, ...]:
        """With lines of two more sessions, whose rows have numbers of their own."""
        found = list(lines)
        for session in TAGGING:
            places = sorted(self.rng.randrange(len(found) + 1) for _ in range(self.rng.randrange(6)))
            for more, place in enumerate(places):
                self.tag += 1
                statement = f"INSERT INTO m VALUES ({self.rng.randrange(300)}, 1, {self.tag})"
                found.insert(place + more, f"{session}: {statement}".encode())
        self.writer.events += len(found) - len(lines)
        return tuple(found)

    def beside(self) -> Step:
        self.writer.begin_run()
        return Step("beside", "", self.lines(30, SESSIONS[:2]))

    def short(self) -> Step:
        """A call without input."""
        word = self.rng.choice(["checkpoint", "checkpoint", "log", "check"])
        if word == "checkpoint" and self.rng.random() < 0.3:
            return Step(word, f"crash {self.rng.randrange(10**6)}")
        return Step(word, fault(self.rng, word, 8) if self.rng.random() < 0.5 else "")

    def damage(self) -> Step:
        return Step("damage", str(self.rng.randrange(10**6)))

    def look(self) -> Step:
        """Everything that is there is asked for."""
        names = [*sorted(self.writer.hypers), *sorted(self.writer.views)]
        return Step("run", "", tuple(f"look: SELECT * FROM {name}".encode() for name in names))

    def follow(self) -> Step:
        return Step("follow", "", self.look().lines)

    def limits(self) -> Step:
        """As many sessions, tables or policies as there may be, and one more."""
        rng, most = self.rng, MOST_SESSIONS + 1
        kind = rng.randrange(4)
        texts = {
            0: [f"s{at}: COMMIT" for at in range(most)],
            1: [f"a: CREATE TABLE r{at} (time BIGINT)" for at in range(most)],
            2: ["a: SELECT add_retention_policy('m', drop_after => 1000)"] * most + ["a: TICK 5"],
            3: [
                f"a: CREATE MATERIALIZED VIEW w{at} WITH (timescaledb.continuous) AS SELECT time_bucket(100, time), "
                "count(*) FROM m GROUP BY 1 WITH NO DATA"
                for at in range(most)
            ],
        }
        return Step("run", "", tuple(text.encode() for text in texts[kind]))

    def taken_over(self) -> list[Step]:
        """A refresh that is cut in one call, and finished by its number in another, which may have one of its own. How
        many events there are isn't known for sure, so some numbers are tried."""
        numbers = [self.writer.events + more for more in range(4)]
        self.writer.events += 4
        cut = Step("run", "", (f"a: REFRESH CUT 'c', {self.writer.window()}".encode(),))
        changes = [self.rng.choice([self.writer.insert, self.writer.delete])() for _ in range(self.rng.randrange(4))]
        statements = [f"REFRESH SNAP {number}" for number in numbers]
        if self.rng.random() < 0.5:
            statements += [f"REFRESH CUT 'c', {self.writer.window()}", "REFRESH SNAP"]
        statements += [*changes, *(f"REFRESH FINISH {number}" for number in numbers), "SELECT * FROM c"]
        finish = Step("run", "", tuple(f"b: {statement}".encode("latin-1") for statement in statements))
        return [cut, *[Step("checkpoint")] * (self.rng.random() < 0.6), finish]

    def near_the_end(self) -> list[Step]:
        """The last events of a history. A refresh in one statement may find room for its cut only."""
        position = 2**62 - self.rng.choice([0, 1, 1, 1, 2, 3])
        phases = ["REFRESH FINISH", "REFRESH SNAP", "REFRESH FINISH"]
        statements = ["CALL refresh_continuous_aggregate('c', NULL, NULL)", *phases]
        call = Step("run", "", tuple(f"a: {statement}".encode() for statement in statements))
        others = [self.rng.choice([self.run, self.par, self.short])() for _ in range(2)]
        return [Step("jump", str(position)), *([call] if self.rng.random() < 0.7 else []), *others]

    def life(self) -> Life:
        setup = tuple(self.writer.setup("a"))
        steps = [Step("run", "", setup)]
        if self.rng.random() < 0.25:
            steps.insert(0, Step("run", self.first_how(len(setup)), setup))
        kinds = [
            (self.run, 8), (self.par, 5), (self.short, 5), (self.beside, 1), (self.damage, 1), (self.look, 1),
            (self.follow, 2),
        ]
        if self.rng.random() < 0.15:
            steps += self.taken_over()
        for _ in range(self.rng.randrange(2, 9)):
            steps.append(self.rng.choices([kind for kind, _ in kinds], [weight for _, weight in kinds])[0]())
            if steps[-1].word == "json" and self.rng.random() < 0.5:
                steps.append(Step("audit", fault(self.rng, "audit", len(steps[-1].lines))))
        if self.rng.random() < 0.05:
            steps.append(self.limits())
        if self.rng.random() < 0.06:
            steps.append(Step("run", "", tuple(self.writer.limits("a"))))
        if self.rng.random() < 0.08:
            steps += self.near_the_end()
        if self.rng.random() < 0.01:
            memory = f"memory {self.rng.randrange(1, 400)} 1000000000 error 12"
            call = self.rng.choice(["thread 1 1 error 11", "thread 1 1000000000 error 11", memory])
            steps.append(Step("run", f"fault {call}", tuple(self.writer.many_rows("a"))))
        return (*steps, self.look(), Step("checkpoint"), self.look(), self.follow())
