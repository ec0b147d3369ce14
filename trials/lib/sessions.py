"""Sessions: what each statement replies and which events it makes, as docs/SQL.md says.

A statement is a course of store calls. At each it yields and is sent the position at which the call is made: that of
the end of the history in `run`, and that which a reply prints where a run is replayed.
"""
from collections.abc import Generator
from dataclasses import dataclass, field

import grammar
from grammar import read_statement
from history import (
    GREATEST_TIME, LAST_POSITION, LEAST_TIME, Built, Committed, CutMade, Event, History, ModeSet, Moment, Operation,
    View, effect,
)
from lines import Line
from refusals import Refused
from resolve import (
    MOST_INTERVAL, a_hypertable, an_aggregate, answer_of, check, check_time, chunks_to_drop, new_hypertable, new_table,
    new_view, rows_to_delete, rows_to_insert,
)

MOST_POLICIES = 64
Course = Generator[None, int, None]
Query = grammar.SelectAll | grammar.Fold
Change = grammar.Insert | grammar.Delete | grammar.DropChunks


@dataclass
class Policy:
    """A policy, and when it ran last."""

    statement: grammar.RefreshPolicy | grammar.RetentionPolicy
    last: int | None = None

    def is_due(self, time: int) -> bool:
        return self.last is None or self.last + self.statement.interval <= time

    def stands_for(self, time: int) -> grammar.Refresh | grammar.DropChunks:
        """The statement that it runs. A bound below the range of times is the least time."""
        def before(back: int) -> int:
            return max(LEAST_TIME, time - back)

        it = self.statement
        if isinstance(it, grammar.RetentionPolicy):
            return grammar.DropChunks(it.relation, before(it.after))
        low = None if it.start is None else before(it.start)
        return grammar.Refresh(it.relation, low, None if it.end is None else before(it.end))


class Misplaced(Exception):
    """A reply tells of an event at a position where another one was made."""


@dataclass
class Store:
    """The history that sessions share. Once its journal has failed no event is made."""

    history: History = field(default_factory=History)
    has_failed: bool = False

    def make(self, event: Event, position: int) -> int:
        """Makes an event at a position, which has to be the end of the history."""
        check(position < LAST_POSITION, 30)
        check(not self.has_failed, 24)
        if position != self.history.position:
            raise Misplaced(f"an event is made at {position}, and the history ends at {self.history.position}")
        return self.history.add(event)


class Session:
    """What a session keeps between its lines."""

    def __init__(self, store: Store) -> None:
        self.store = store
        self.queue: list[Operation] | None = None
        self.reads_at: int | None = None
        self.cut: int | None = None
        self.snapshots: dict[int, int] = {}
        self.policies: list[Policy] = []
        self.replies: list[str] = []
        self.position = 0

    def moment(self, position: int) -> Moment:
        """What a store call sees there."""
        self.position = position
        return Moment(self.store.history, position)

    def course(self, line: Line) -> Course:
        """The store calls of a line. Its replies are gathered, without the session's name."""
        self.replies = []
        try:
            statement = read_statement(line)
            self.check_block(statement)
            yield from self.run(statement)
        except Refused as refused:
            self.replies.append(refused.text(self.position))

    def check_block(self, statement: grammar.Statement) -> None:
        """Whether the statement may be given in a block or outside of one."""
        ends = isinstance(statement, (grammar.Commit, grammar.Rollback))
        is_query = isinstance(statement, (grammar.SelectAll, grammar.Fold))
        if self.queue is not None:
            is_change = isinstance(statement, (grammar.Insert, grammar.Delete, grammar.DropChunks))
            check(ends or is_query or is_change, 16)
        elif self.reads_at is not None:
            check(ends or is_query, 17)
        else:
            check(not ends, 18)

    def run(self, statement: grammar.Statement) -> Course:
        match statement:
            case grammar.CreateTable():
                moment = self.moment((yield))
                self.say("TABLE @{}", new_table(moment, statement))
            case grammar.CreateHypertable():
                moment = self.moment((yield))
                self.say("HYPERTABLE @{}", new_hypertable(moment, statement))
            case grammar.CreateView():
                yield from self.create_view(statement)
            case grammar.AlterView():
                moment = self.moment((yield))
                self.say("MODE @{}", ModeSet(an_aggregate(moment, statement.relation)[0], statement.only))
            case grammar.Insert() | grammar.Delete() | grammar.DropChunks():
                yield from self.change(statement)
            case grammar.SelectAll() | grammar.Fold():
                yield from self.query(statement)
            case grammar.Refresh():
                yield from self.refresh(statement)
            case grammar.Snap():
                yield from self.snap(statement.cut)
            case grammar.Finish():
                yield from self.finish(statement.cut)
            case grammar.Begin():
                yield from self.begin(statement.read_only)
            case grammar.Commit() | grammar.Rollback():
                yield from self.end_block(isinstance(statement, grammar.Commit))
            case grammar.RefreshPolicy() | grammar.RetentionPolicy():
                yield from self.add_policy(statement)
            case grammar.Tick():
                yield from self.tick(statement.time)

    def say(self, text: str, event: Event) -> int:
        """Makes an event, and replies with its number."""
        number = self.store.make(event, self.position)
        self.replies.append(text.format(number))
        return number

    # ---- rows and queries

    def change(self, statement: Change) -> Course:
        moment = self.moment((yield))
        operation: Operation
        if isinstance(statement, grammar.Insert):
            operation = rows_to_insert(moment, statement)
        elif isinstance(statement, grammar.Delete):
            operation = rows_to_delete(moment, statement)
        else:
            operation = chunks_to_drop(moment, statement)
        if self.queue is None:
            self.commit(moment, [operation])
        else:
            self.queue.append(operation)
            self.replies.append("QUEUED")

    def commit(self, moment: Moment, operations: list[Operation]) -> None:
        moment.queue = operations
        effects = [moment.effect(table) for table in self.store.history.tables]
        inserted, removed = sum(it.inserted for it in effects), sum(it.removed for it in effects)
        self.say(f"COMMIT @{{}} +{inserted} -{removed}", Committed(tuple(operations)))

    def query(self, statement: Query) -> Course:
        position = self.reads_at
        if position is None:
            position = yield
        moment = self.moment(position)
        moment.queue = self.queue or ()
        answer = answer_of(moment, statement)
        queue = "" if self.queue is None else f"queue {len(self.queue)} "
        self.replies.append(f"ANSWER @{position} {queue}rows {len(answer.rows)} stale {len(answer.stale)}")
        self.replies += ["|".join("null" if cell is None else str(cell) for cell in row) for row in answer.rows]
        self.replies += [f"stale {span}" for span in answer.stale]

    # ---- blocks

    def begin(self, read_only: bool) -> Course:
        if read_only:
            self.position = self.reads_at = yield
            self.replies.append(f"BEGIN @{self.reads_at}")
        else:
            self.queue = []
            self.replies.append("BEGIN")

    def end_block(self, commits: bool) -> Course:
        if self.queue is None:
            self.replies.append("END")
        elif not commits:
            self.replies.append("ROLLBACK")
        elif not self.queue:
            self.replies.append("COMMIT EMPTY")
        else:
            self.commit(self.moment((yield)), self.queue)
        self.queue = self.reads_at = None

    # ---- aggregates and their refreshes

    def create_view(self, statement: grammar.CreateView) -> Course:
        moment = self.moment((yield))
        self.say("VIEW @{}", new_view(moment, statement))
        if statement.with_data:
            yield from self.refresh(grammar.Refresh(statement.name, None, None))

    def refresh(self, statement: grammar.Refresh) -> Course:
        moment = self.moment((yield))
        number, view = an_aggregate(moment, statement.relation)
        for bound in (statement.low, statement.high):
            if bound is not None:
                check_time(bound)
        span = moment.window(view, statement.low, statement.high)
        if span.low >= span.high:
            check(statement.high is None, 15)
            self.replies.append(f"NOTHING @{moment.position}")
            return
        self.cut = self.store.make(CutMade(number, span), self.position)
        text = view.made.width.text(span)
        self.replies.append(f"CUT {self.cut} {text}")
        if not statement.only_cut:
            yield from self.other_phases(self.cut, text)

    def other_phases(self, cut: int, text: str) -> Course:
        """Snapshot and finish of a refresh in one statement. Of one that is refused in between the cut is left."""
        told = self.replies.copy()
        yield from self.snap(None)
        self.replies = told.copy()
        try:
            yield from self.finish(None)
        except Refused:
            del self.snapshots[cut]
            raise
        last = self.replies[-1].split()
        self.replies = [*told[:-1], f"REFRESH {cut} {last[2]} snap {last[4]} {text}"]

    def named_refresh(self, moment: Moment, number: int | None) -> int:
        """The refresh of a SNAP or FINISH, which has to wait."""
        cut = self.cut if number is None else number
        if cut is None:
            raise Refused(19)
        by = self.store.history.finished_by(cut, moment.position)
        check(moment.history.is_waiting(cut, moment.position), 19, "" if by is None else f" finished {by}")
        return cut

    def snap(self, number: int | None) -> Course:
        moment = self.moment((yield))
        cut = self.named_refresh(moment, number)
        self.snapshots[cut] = moment.position
        self.replies.append(f"SNAP {cut} @{moment.position}")

    def finish(self, number: int | None) -> Course:
        moment = self.moment((yield))
        cut = self.named_refresh(moment, number)
        check(cut in self.snapshots, 20)
        self.say(f"FINISH {cut} @{{}} snap {self.snapshots[cut]}", Built(cut, self.snapshots[cut]))

    # ---- policies

    def add_policy(self, statement: grammar.RefreshPolicy | grammar.RetentionPolicy) -> Course:
        moment = self.moment((yield))
        if isinstance(statement, grammar.RefreshPolicy):
            check_refresh_policy(an_aggregate(moment, statement.relation)[1], statement)
        else:
            a_hypertable(moment, statement.relation)
            check(0 <= statement.after <= MOST_INTERVAL and 1 <= statement.interval <= MOST_INTERVAL, 26)
        check(len(self.policies) < MOST_POLICIES, 27, f" count {MOST_POLICIES + 1}")
        self.policies.append(Policy(statement))
        self.replies.append(f"POLICY {len(self.policies)} @{moment.position}")

    def tick(self, time: int) -> Course:
        if not LEAST_TIME <= time <= GREATEST_TIME:
            self.position = yield
            raise Refused(9)
        due = [policy for policy in self.policies if policy.is_due(time)]
        told = [f"TICK {time} due {len(due)}"]
        for policy in due:
            policy.last, self.replies = time, []
            try:
                yield from self.run(policy.stands_for(time))
            except Refused as refused:
                self.replies.append(refused.text(self.position))
            told += self.replies
        self.replies = told


def check_refresh_policy(view: View, statement: grammar.RefreshPolicy) -> None:
    start, end = statement.start, statement.end
    check(all(offset is None or 0 <= offset <= MOST_INTERVAL for offset in (start, end)), 26)
    check(1 <= statement.interval <= MOST_INTERVAL, 26)
    if start is not None and end is not None:
        check(start - end >= 2 * view.made.width.step, 26)
