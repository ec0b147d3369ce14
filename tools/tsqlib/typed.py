"""Collects what is typed at a prompt until it is a statement."""
from __future__ import annotations

from .scripts import begins_statement, is_whole, removes_rows
from .statements import SESSION, tokens_in

# Words that stand for a command of the prompt, if they are all that is typed.
COMMANDS = {"help": "\\?", "?": "\\?", "quit": "\\q", "exit": "\\q", ".quit": "\\q", ".exit": "\\q", ".help": "\\?"}


def bytes_of(text: str) -> bytes:
    """The bytes that were typed, also those that are no text."""
    return text.encode("utf-8", "surrogateescape")


def without_session(text: str) -> bytes:
    """The bytes of a statement without its session."""
    found = SESSION.match(text)
    return bytes_of(text[found.end() if found else 0 :])


def starts_anew(line: str) -> bool:
    """Whether a line can't be the rest of a statement that may end before it."""
    return bool(SESSION.match(line)) or line.lstrip().startswith("\\") or begins_statement(bytes_of(line))


class Typed:
    """A statement ends with `;`. A whole line without one is a statement too, unless it removes rows."""

    def __init__(self) -> None:
        self.text = ""
        # What a new statement has pushed aside, since no `;` ended it.
        self.pushed_aside: list[str] = []

    def add(self, typed: str) -> list[str]:
        """Takes what was typed, which is several lines if it was pasted. Gives the statements that are whole now, and
        commands of the prompt as they are."""
        found = []
        lines = typed.split("\n")
        for place, line in enumerate(lines):
            word = line.strip()
            if word.startswith("\\") or not self.text and word.rstrip(";").lower() in COMMANDS:
                found.append(COMMANDS.get(word.rstrip(";").lower(), word))
                continue
            found += self.add_line(line)
            if self.text and self.ends_before(lines[place + 1 :]):
                found.append(self.take())
        return found

    def add_line(self, line: str) -> list[str]:
        """Takes a line, and gives the statements that end in it with `;`."""
        if self.text and starts_anew(line) and is_whole(without_session(self.text)):
            self.pushed_aside.append(self.take())
        found, start, end = [], 0, 0
        for token in tokens_in(line):
            end = token.end
            if token.is_symbol(";"):
                self.append(line[start:end])
                found.append(self.take())
                start = end
        self.append(line[start:end])
        return [text for text in found if text != ";"]

    def append(self, part: str) -> None:
        """Appends a part to what is there."""
        self.text = f"{self.text} {part.strip()}".strip()

    def ends_before(self, lines: list[str]) -> bool:
        """Whether what is there is a statement, if these lines were pasted with it."""
        statement = without_session(self.text)
        if not is_whole(statement) or removes_rows(statement):
            return False
        return all(starts_anew(line) for line in [line for line in lines if tokens_in(line)][:1])

    def take(self) -> str:
        """Takes out what is there."""
        text, self.text = self.text, ""
        return text
