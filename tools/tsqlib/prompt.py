"""`tsq prompt`: statements typed at a terminal, with history and completion."""
from __future__ import annotations

import io
import os
import signal
import sys
import time
from argparse import Namespace
from collections.abc import Iterator
from contextlib import ExitStack, contextmanager
from pathlib import Path
from types import FrameType

from . import programs
from .backslash import run_command
from .completion import completer
from .copies import cleaned_up
from .follower import Follower, asks
from .holder import held_by
from .dropped import JournalDrops
from .messages import Trouble, say
from .names import Names
from .options import Commands, snapshot_option, style_options
from .printing import Printer, style_of
from .programs import Ended
from .schema import Schema, learn_folder
from .scripts import looks_like_rest
from .sent import Sender
from .signals import Stop, interrupted, line_typed
from .statements import SESSION, line_of
from .talk import ME, Stopped, Talk
from .terminal import FAINT, colored
from .translation import NotSent
from .typed import Typed, bytes_of
from .version import version

try:
    import readline
except ImportError:
    readline = None  # type: ignore[assignment]

HISTORY = os.path.expanduser("~/.tsq_history")
MOST_KEPT = 1000
FAILED = 1
# What is typed here to say the unit of times.
SAYS_UNIT = "\\pset times s, ms or us"


def add_command(commands: Commands) -> None:
    """`tsq prompt`."""
    parser = commands.add_parser("prompt", help="answer statements as they are typed (the default at a terminal)")
    snapshot_option(parser, "answer questions from a copy that follows the journal, whoever holds it")
    style_options(parser)
    parser.set_defaults(call=prompt)


def is_meant(options: Namespace) -> bool:
    """Whether `tsq run` with these options is the prompt: at a terminal, without anything to run."""
    return sys.stdin.isatty() and not (options.script or options.replies or options.par or options.ranges)


def with_session(text: str) -> str:
    """A statement in the session `me` if it names none."""
    return text if SESSION.match(text) or not line_of(bytes_of(text), 1) else f"{ME}: {text}"


def statement_of(text: str) -> str:
    """A statement without its session."""
    found = SESSION.match(text)
    return text[found.end() if found else 0 :]


class Prompt:
    """Takes statements and commands, and shows what comes of them."""

    def __init__(self, options: Namespace, talk: Talk, schema: Schema) -> None:
        self.options = options
        self.talk = talk
        self.schema = schema
        self.names = Names.read(talk.folder)
        self.printer = Printer(schema, style_of(options, self.names), options.form, is_script=False)
        self.printer.drops = JournalDrops(talk.follower.origin if talk.follower else talk.folder)
        self.sender = Sender(options, schema, self.names, SAYS_UNIT)
        self.typed = Typed()
        self.is_timing = False
        self.last_query = ""

    # ---- what is typed

    def text(self) -> str:
        """What stands in front of the line that is typed."""
        if self.typed.text:
            return "...> "
        return "tsq*> " if self.talk.has_block() else "tsq> "

    def run_text(self, text: str) -> bool:
        """Runs what was typed, which may be several statements. Gives whether it goes on behind it."""
        for statement in self.typed.add(text):
            self.tell_pushed_aside()
            if statement == "\\q":
                if self.may_leave():
                    return False
                continue
            self.run_one(statement)
        self.tell_pushed_aside()
        return True

    def run_one(self, statement: str) -> None:
        """Runs a statement or a command. What is wrong with it is told."""
        try:
            run_command(self, statement) if statement.startswith("\\") else self.answer(statement)
        except Trouble as trouble:
            say(str(trouble))
        except NotSent as error:
            say(f"not sent: {error}")
        except Stopped as stopped:
            print()
            say(str(stopped))
        except KeyboardInterrupt:
            print()

    def tell_pushed_aside(self) -> None:
        """Says which statements weren't run, since another one began before their `;`."""
        for text in self.typed.pushed_aside:
            say(f"not run, since no ; ends it: {text}")
        self.typed.pushed_aside = []

    # ---- answers

    def answer(self, statement: str) -> None:
        """Puts a statement in, and prints its reply."""
        self.check(statement)
        raw = self.sender.sent(1, bytes_of(with_session(statement)))
        if not line_of(raw, 1):
            return
        begun = time.monotonic()
        reply = self.talk.ask(raw)
        taken = time.monotonic() - begun
        self.sender.learn(reply)
        self.printer.print(reply)
        if reply.is_answer():
            self.last_query = statement
        if self.is_timing:
            print(f"{taken * 1000:.1f} ms")

    def check(self, statement: str) -> None:
        """Refuses the rest of a statement, and a question that would only make an empty journal."""
        if looks_like_rest(bytes_of(statement)):
            raise Trouble("this looks like the rest of a statement, which ran without it: only ; ends one over lines")
        is_first = self.talk.program is None and not (self.talk.folder / "tsctl.journal").exists()
        if is_first and asks(statement_of(statement)):
            folder = os.path.abspath(self.talk.folder)
            raise Trouble(f"no journal is in {folder}, so nothing is asked; a statement that writes makes one")

    def show(self, lines: list[str]) -> None:
        """Prints lines of a table that has two of its own above its rows."""
        self.printer.screen.show([(line, ()) for line in lines])

    def restyle(self) -> None:
        """Takes what the options say of answers."""
        self.printer.style = style_of(self.options, self.names)
        self.sender = Sender(self.options, self.schema, self.names, SAYS_UNIT)

    def check_scales(self) -> None:
        """Says which scale is of a column that no table and no aggregate has. A query may name one by AS."""
        known = {name for output in self.schema.outputs.values() for name in output.names}
        for name, power in self.options.scale:
            if known and name not in known:
                say(f"scale {name}={power}: no table and no aggregate has a column {name}")

    # ---- the end

    def may_leave(self) -> bool:
        """Whether the prompt may end: an open block is lost by it."""
        held = self.talk.held()
        if not held or not sys.stdin.isatty():
            if held:
                say(f"given up: {held}")
            return True
        try:
            return line_typed(f"Leaving gives up {held}. Leave? [y/N] ").strip().lower() in ("y", "yes")
        except EOFError:
            print()
            return True
        except KeyboardInterrupt:
            print()
            return False


def converse(prompt: Prompt) -> None:
    """Reads what is typed until the input ends or `\\q` is typed. Ctrl-C gives up what is typed."""
    while True:
        try:
            if not prompt.run_text(line_typed(prompt.text())):
                return
        except EOFError:
            print()
            if prompt.typed.text:
                say(f"not run, since no ; ends it: {prompt.typed.take()}")
                if sys.stdin.isatty():
                    continue
            if prompt.may_leave():
                return
        except KeyboardInterrupt:
            prompt.typed.take()
            print()


# ---- the terminal


def prepare_terminal(prompt: Prompt) -> None:
    """Completion, pasting of several lines as one, and the statements of earlier calls behind the arrow keys."""
    if readline is None:
        return

    def before(part: str) -> str:
        return f"{prompt.typed.text} {readline.get_line_buffer()[: readline.get_begidx()]}"

    readline.set_completer(completer(prompt.schema, before))
    readline.set_completer_delims(" \t\n,()'=<>:;")
    for setting in ("tab: complete", "set enable-bracketed-paste on", "set completion-ignore-case on"):
        readline.parse_and_bind(setting)
    try:
        readline.read_history_file(HISTORY)
    except OSError:
        pass


def keep_history() -> None:
    """Writes the statements down for the next call, for their user alone to read."""
    if readline is None:
        return
    readline.set_history_length(MOST_KEPT)
    try:
        os.close(os.open(HISTORY, os.O_CREAT | os.O_WRONLY, 0o600))
        readline.write_history_file(HISTORY)
    except OSError:
        pass


def print_banner(prompt: Prompt, folder: Path) -> None:
    """The version, the folder with what is there, and how to get help."""
    if not sys.stdin.isatty():
        return
    shown = os.path.abspath(folder)
    print(f"tsq {version()}, {shown}", flush=True)
    if not (folder / "tsctl.journal").exists():
        print("no journal is here yet: the first statement that runs makes one")
    else:
        views = len(prompt.schema.sources)
        tables = len(prompt.schema.outputs) - views
        print(f"position {prompt.talk.find_position()}, tables: {tables}, aggregates: {views}")
    print(colored("Statements end with ;  \\? shows the commands, \\q or Ctrl-D leaves", FAINT))


@contextmanager
def talk_over(folder: Path, is_wanted: bool) -> Iterator[Talk]:
    """A talk with tsctl in a folder; over a copy of its journal if one is wanted, or if another process holds it."""
    with ExitStack() as stack:
        holder = held_by(folder)
        follower = None
        if is_wanted or holder is not None:
            stack.enter_context(cleaned_up())
            follower = stack.enter_context(Follower(folder, has_image=False))
            if holder is not None:
                say(f"process {holder} holds {folder.absolute()}, and one run at a time may write there")
            say(f"questions are answered from a copy that follows it, now at position {follower.position}")
        yield Talk(folder, follower)


def leave(number: int, _frame: FrameType | None) -> None:
    """A signal ends the prompt, and the program with it."""
    raise Stop(number)


def prompt(options: Namespace) -> int:
    """Answers statements as they are typed; gives the exit status, which a refusal doesn't change."""
    if isinstance(sys.stdin, io.TextIOWrapper):
        sys.stdin.reconfigure(errors="surrogateescape")
    folder = Path(options.folder or ".")
    schema = Schema()
    learn_folder(schema, folder)
    for number in (signal.SIGTERM, signal.SIGHUP):
        signal.signal(number, leave)
    with interrupted(), talk_over(folder, options.snapshot) as talk:
        conversation = Prompt(options, talk, schema)
        try:
            conversation.check_scales()
            print_banner(conversation, folder)
            prepare_terminal(conversation)
            converse(conversation)
        except Ended as ended:
            programs.tell_signal(ended.status)
            return ended.status
        except Stop as stop:
            return stop.status()
        finally:
            keep_history()
            status = talk.end()
    return 0 if status == FAILED else status
