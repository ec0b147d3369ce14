"""What is sent to tsctl for a line that was written: the same, or with numbers for dates and texts."""
from __future__ import annotations

from argparse import Namespace

from .messages import say
from .names import Names
from .printing import unit_of
from .replies import Reply
from .schema import Schema
from .statements import before_comment
from .translation import Translator


class Sender:
    """Translates lines, and says what is sent if that is asked for. `asked_by` is that of the translator."""

    def __init__(self, options: Namespace, schema: Schema, names: Names, asked_by: str = "--times s, ms or us") -> None:
        self.options = options
        texts = frozenset(options.texts)
        self.translator = Translator(schema, names, unit_of(options, names), texts, asked_by=asked_by)
        # The lines that define something by the unit of times.
        self.defining: set[int] = set()

    def sent(self, number: int, raw: bytes) -> bytes:
        """The bytes of a line as it is sent; the same if nothing in it is translated. It may end as NotSent."""
        text = raw.decode("utf-8", "surrogateescape")
        translated = self.translator.translated(text)
        if self.translator.defines:
            self.defining.add(number)
        if translated == text:
            return raw
        sent = before_comment(translated.encode("utf-8", "surrogateescape"))
        if self.options.show:
            say(f"line {number} is sent as: {sent.decode('utf-8', 'replace')}")
        return sent

    def learn(self, reply: Reply) -> None:
        """Takes the reply to a line. The unit by which a statement has defined something is that of the folder."""
        if reply.line.number in self.defining:
            self.defining.remove(reply.line.number)
            if not reply.fault():
                self.translator.keep_unit()
