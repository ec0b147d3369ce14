"""The command line: which command the words name, and the exit status that it ends with."""
from __future__ import annotations

import argparse
import difflib
import io
import os
import re
import sys
from collections.abc import Collection
from importlib import import_module

from .messages import Trouble, say
from .signals import Stop
from .version import version

# The commands, in the order of the help. Each has a module of its name, which is read where the command is meant.
COMMANDS = (
    "run", "prompt", "load", "import", "plot", "roll", "refresh", "watch", "serve", "backup", "verify", "export", "log",
)  # fmt: skip
TROUBLE = 2
WRITE_FAULT = 4
OUT_OF_MEMORY = 7
INTERRUPTED = 130
# What no word may have, since it could end a line of a statement or of a picture. A tab may part cells.
CONTROL = re.compile(r"[\x00-\x08\x0a-\x1f\x7f]")
TOP_OPTIONS = ("-h", "--help", "--version")


class Parser(argparse.ArgumentParser):
    """A parser of a command, whose options are written in full: a shorter one could come to mean another."""

    def __init__(self, **how: object) -> None:
        super().__init__(**(how | {"allow_abbrev": False}))  # type: ignore[arg-type]


def add_help(commands: argparse._SubParsersAction[Parser], top: Parser) -> None:
    """`tsq help`, which prints what `tsq --help` and `tsq COMMAND --help` print."""

    def print_help(arguments: argparse.Namespace) -> int:
        (commands.choices[arguments.command] if arguments.command else top).print_help()
        return 0

    parser = commands.add_parser("help", help="print the options of a command")
    parser.add_argument("command", nargs="?", choices=list(commands.choices))
    parser.set_defaults(call=print_help)


def parser_of(command: str) -> Parser:
    """The parser of words that begin with a command, or with something else that may be of all."""
    parser = Parser(prog="tsq", description="A companion of tsctl; docs/TSQ.md says more.")
    parser.add_argument("--version", action="version", version=f"tsq {version()}")
    # Its usage has all of them, whichever are read.
    names = f"{{{','.join((*COMMANDS, 'help'))}}}"
    commands = parser.add_subparsers(required=True, dest="command_name", title="commands", metavar=names)
    for name in [command] if command in COMMANDS else COMMANDS:
        module = "import_" if name == "import" else name
        import_module(f".{module}", __package__).add_command(commands)
    add_help(commands, parser)
    return parser


def folder_words(words: list[str]) -> int:
    """How many words in front are `--in FOLDER`, which may be written before the command."""
    if words[:1] == ["--in"]:
        return min(2, len(words))
    return int(bool(words) and words[0].startswith("--in="))


def with_command(words: list[str], commands: Collection[str]) -> list[str]:
    """The words with their command in front: `run`, if the first one is an option or a file."""
    front = folder_words(words)
    folder, rest = words[:front], words[front:]
    if not folder and rest[:1] and rest[0] in TOP_OPTIONS:
        return rest
    if not rest or rest[0].startswith("-"):
        return ["run", *folder, *rest]
    if rest[0] in commands:
        return [rest[0], *folder, *rest[1:]]
    if not os.path.exists(rest[0]):
        near = difflib.get_close_matches(rest[0], commands, 1)
        meant = f"did you mean {near[0]}? " if near else ""
        raise Trouble(f"{rest[0]} is no command and no file; {meant}`tsq help` has the commands")
    return ["run", *folder, *rest]


def options_of(words: list[str]) -> argparse.Namespace:
    """The options of the command. At a terminal, `run` without a script is the prompt."""
    for word in words:
        if CONTROL.search(word):
            raise Trouble(f"{word!r} has a control character")
    words = with_command(words, (*COMMANDS, "help"))
    options = parser_of(words[0]).parse_args(words)
    if words[0] == "run" and sys.stdin.isatty():
        prompt = import_module(".prompt", __package__)
        if prompt.is_meant(options):
            options.call = prompt.prompt
    return options


def done(words: list[str]) -> int:
    """Does what the words say, and gives the exit status."""
    try:
        options = options_of(words)
        status: int = options.call(options)
        sys.stdout.flush()
        return status
    except Trouble as trouble:
        say(str(trouble))
        return TROUBLE
    except KeyboardInterrupt:
        return INTERRUPTED
    except Stop as stop:
        return stop.status()
    except MemoryError:
        say("out of memory")
        return OUT_OF_MEMORY


def main(words: list[str]) -> int:
    """Does what the words say, and gives the exit status."""
    # Python has none of these if it is closed.
    sys.stdin = sys.stdin or open(os.devnull)
    sys.stdout = sys.stdout or open(os.devnull, "w")
    # What a terminal can't show is no reason to end.
    if isinstance(sys.stdout, io.TextIOWrapper):
        sys.stdout.reconfigure(errors="replace")
    try:
        return done(words)
    except OSError as error:
        if error.filename is not None:
            say(f"{error.filename}: {error.strerror}")
            return TROUBLE
        # What is still to be written goes nowhere, now and when Python ends.
        os.dup2(os.open(os.devnull, os.O_WRONLY), sys.stdout.fileno())
        say(f"write fault: {error.strerror}")
        return WRITE_FAULT
