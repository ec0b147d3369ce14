"""Dates, lengths of time and texts of keys in statements, as the whole numbers that tsctl takes."""
from __future__ import annotations

import difflib
import re
import time
from collections.abc import Callable

from .intervals import length_of
from .journal import LEAST_TIME, MOST_TIME
from .messages import say
from .names import Names, Unit
from .schema import Schema
from .slots import AGE, LENGTH, TIME, VALUE, Slot, slots
from .statements import SESSION, Token, tokens_in
from .values import DATE, NANOSECONDS, NUMBER, Bad, time_of

NOW = re.compile(r"\bnow\s*\(", re.IGNORECASE)
# Words in front of a quoted date, as PostgreSQL has them.
DATE_WORDS = ("date", "timestamp", "timestamptz")
# Calls whose quotes hold a name, and whose quoted unit is a word.
NAME_CALLS = (
    "create_hypertable", "drop_chunks", "refresh_continuous_aggregate", "add_continuous_aggregate_policy",
    "add_retention_policy", "calendar_bucket",
)  # fmt: skip
# Calls that define something by lengths of time.
DEFINING_CALLS = ("create_hypertable", "add_continuous_aggregate_policy", "add_retention_policy")


class NotSent(Exception):
    """Why a statement wasn't given to tsctl."""


def is_definition(tokens: list[Token]) -> bool:
    """Whether a statement makes a hypertable, an aggregate or a policy."""
    is_call = len(tokens) > 1 and tokens[0].is_word("select") and tokens[1].is_word(*DEFINING_CALLS)
    return is_call or bool(tokens) and tokens[0].is_word("create")


class Translator:
    """Translates statements by what is known of a folder: its columns, the unit of its times, and its texts.

    `new_texts` are the columns whose texts get numbers when they are inserted, even if they have none yet. `asked_by`
    is what to write to say the unit of times: if it is given, a statement that needs one isn't sent without.
    """

    def __init__(
        self, schema: Schema, names: Names, unit: Unit | None, new_texts: frozenset[str] = frozenset(),
        now: Callable[[], int] = time.time_ns, asked_by: str = "",
    ) -> None:  # fmt: skip
        self.schema = schema
        self.names = names
        self.unit = unit
        self.new_texts = new_texts
        self.now = now
        self.asked_by = asked_by
        # Whether the last statement defines something, by times or lengths of time in this unit.
        self.defines = False
        # Without a unit and texts all is left to tsctl.
        self.is_at_work = unit is not None or bool(new_texts) or names.path.exists()

    def is_needed(self, text: str) -> bool:
        """Whether a line may have something to translate."""
        return (self.is_at_work or bool(self.asked_by)) and ("'" in text or bool(NOW.search(text)))

    def translated(self, text: str) -> str:
        """A line with its session, in which all is a number that stands for one. It may end as NotSent."""
        self.defines = False
        if not self.is_needed(text):
            return text
        found = SESSION.match(text)
        tokens = tokens_in(text, found.end() if found else 0)
        body = tokens[:-1] if tokens and tokens[-1].is_symbol(";") else tokens
        if not self.is_at_work:
            self.require_unit(body)
            return text
        changes = self.changes(body)
        for start, end, number in reversed(changes):
            text = text[:start] + number + text[end:]
        return text

    def changes(self, tokens: list[Token]) -> list[tuple[int, int, str]]:
        """What is written in place of which part of the text, in order."""
        found: list[tuple[int, int, str]] = []
        done: set[int] = set()
        is_insert = bool(tokens) and tokens[0].is_word("insert")
        new: list[tuple[str, str]] = []
        for slot in sorted(slots(tokens, self.schema)):
            part = tokens[slot.first : slot.last]
            number = self.number_in(slot, part, new if is_insert else None)
            if number is not None:
                found.append((part[0].start, part[-1].end, number))
                done.update(range(slot.first, slot.last))
                self.defines |= slot.kind != VALUE and is_definition(tokens)
        self.require_names(tokens, done)
        if new:
            return self.with_new(tokens, new)
        if is_insert and found and self.unit and not self.names.times:
            self.names.remember(times=self.unit)
        return found

    def with_new(self, tokens: list[Token], new: list[tuple[str, str]]) -> list[tuple[int, int, str]]:
        """The same, once new texts have numbers that are on the disk."""
        self.names.remember(texts=new, times=self.unit)
        for column, text in dict.fromkeys(new):
            say(f"{column} {self.names.number_of(column, text)} is {text!r} from now on")
        return self.changes(tokens)

    def keep_unit(self) -> None:
        """Lets the folder remember the unit, once a statement was carried out that defines something by it."""
        if self.unit and not self.names.times:
            self.names.remember(times=self.unit)

    def require_unit(self, tokens: list[Token]) -> None:
        """That no date and no length of time is there whose number depends on the unit, which isn't known."""
        finest = Translator(self.schema, self.names, "us", now=self.now)
        for slot in sorted(slots(tokens, self.schema)):
            part = tokens[slot.first : slot.last]
            try:
                needs_unit = slot.kind != VALUE and finest.number_in(slot, part, None) is not None
            except NotSent:
                # It is left to tsctl, as it has no number in any unit.
                continue
            if needs_unit:
                self.number_in(slot, part, None)

    def require_names(self, tokens: list[Token], done: set[int]) -> None:
        """That what is left in quotes is the name of a relation or of a unit."""
        for place, token in enumerate(tokens):
            if token.kind != "quoted" or place in done:
                continue
            call = next((tokens[at - 1].text.lower() for at in range(place, 0, -1) if tokens[at].is_symbol("(")), "")
            is_name = call in NAME_CALLS or place == 2 and tokens[0].is_word("refresh")
            if not is_name or not re.fullmatch(r"\w+", token.content()):
                raise NotSent(f"{token.text} stands where no date, no length of time and no text of a column may")

    # ---- numbers

    def number_in(self, slot: Slot, part: list[Token], new: list[tuple[str, str]] | None) -> str | None:
        """The number that the tokens of a slot stand for; nothing if they stay as they are. A text of an INSERT that
        has no number yet is put into `new`."""
        if not any(token.kind == "quoted" or token.is_word("now") for token in part):
            return None
        try:
            if slot.kind == VALUE:
                return self.value_of(slot.column, part, new)
            if self.unit is None:
                raise Bad(f"has no unit: {self.asked_by or '--times s, ms or us'} says what times are")
            return str(self.length(part) if slot.kind == LENGTH else self.time(part, slot.kind == AGE))
        except Bad as bad:
            raise NotSent(f"{' '.join(token.text for token in part)} {bad}") from None

    def length(self, part: list[Token]) -> int:
        """A length of time: `'1 hour'` or `INTERVAL '1 hour'`."""
        words = part[1:] if part[0].is_word("interval") else part
        if len(words) != 1 or words[0].kind != "quoted":
            raise Bad("is no length of time, such as INTERVAL '1 hour'")
        assert self.unit
        return length_of(words[0].content(), self.unit)

    def time(self, part: list[Token], is_age: bool) -> int:
        """A time: a date or now(), and lengths that are added or taken away. Of what is older a length alone is how
        long ago."""
        if is_age and part[0].is_word("interval"):
            return self.in_range(self.present() - self.length(part))
        value, place = self.moment(part)
        while place < len(part):
            sign = part[place]
            length = part[place + 1 : place + 3]
            if not (sign.is_symbol("-") or sign.is_symbol("+")) or not length or not length[0].is_word("interval"):
                raise Bad("is no date, and no date with an INTERVAL added or taken away")
            value += self.length(length) * (-1 if sign.is_symbol("-") else 1)
            place += 3
        return self.in_range(value)

    def moment(self, part: list[Token]) -> tuple[int, int]:
        """The time that tokens begin with, and how many they are."""
        assert self.unit
        if part[0].is_word("now") and [token.text for token in part[1:3]] == ["(", ")"]:
            return self.present(), 3
        start = int(part[0].is_word(*DATE_WORDS))
        if len(part) <= start or part[start].kind != "quoted":
            raise Bad("is no date")
        text = part[start].content().strip()
        if not DATE.fullmatch(text):
            raise Bad("is no date, such as '2024-01-31 12:00' or '2024-01-31T12:00:00+01:00'")
        try:
            return time_of(text, self.unit), start + 1
        except Bad as bad:
            # What the reader of files says of its options isn't meant here.
            raise Bad(str(bad).partition(" (")[0]) from None

    def present(self) -> int:
        """The time that it is."""
        assert self.unit
        return self.now() // NANOSECONDS[self.unit]

    @staticmethod
    def in_range(value: int) -> int:
        """A time that tsctl has."""
        if not LEAST_TIME <= value <= MOST_TIME:
            raise Bad("is out of the range of times")
        return value

    def value_of(self, column: str, part: list[Token], new: list[tuple[str, str]] | None) -> str:
        """The number of a column's text."""
        if len(part) != 1 or part[0].kind != "quoted":
            raise Bad("is no text of a column")
        text = part[0].content().strip()
        number = self.names.number_of(column, text)
        if number is not None:
            return str(number)
        if not text:
            raise Bad("is an empty text, which no number stands for")
        if new is not None and (self.names.has_texts(column) or column in self.new_texts):
            new.append((column, text))
            return "0"
        raise Bad(self.why_unknown(column, text))

    def why_unknown(self, column: str, text: str) -> str:
        """Why a text has no number."""
        if self.names.has_texts(column):
            near = difflib.get_close_matches(text, self.names.texts_of(column).values(), 1)
            return f"is no text of {column}" + (f"; did you mean '{near[0]}'?" if near else "")
        if NUMBER.fullmatch(text):
            return "is a number, which stands in no quotes"
        return f"is no number, and {column} has no texts: --texts {column} lets its texts have numbers"
