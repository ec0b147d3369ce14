"""`tsq run`: a script and its replies, as tables, CSV or JSON."""
from __future__ import annotations

import os
import re
import stat
import sys
from argparse import Namespace
from collections.abc import Iterable, Iterator
from contextlib import AbstractContextManager, nullcontext
from pathlib import Path

from . import programs
from .follower import asks_only, folder_to_ask
from .dropped import JournalDrops
from .holder import require_free
from .messages import Trouble, say
from .names import Names
from .options import Commands, snapshot_option, style_options
from .printing import Printer, style_of
from .programs import Ended, Interrupted, Program
from .replies import Reply, replies_of
from .schema import Schema, learn_folder
from .scripts import Given, given_from, given_of
from .sent import Sender
from .signals import Signals, Stop, interrupted
from .statements import Line, in_order_of_par, line_of, lines_of
from .translation import NotSent


# The status if an option named what isn't there.
UNUSED = 2
# What to do while another process holds the folder.
WAY_ON = "end it first; beside it `tsq SCRIPT` answers a file of queries from a copy"


def add_command(commands: Commands) -> None:
    """`tsq run`."""
    parser = commands.add_parser("run", help="run a script, and print its answers as tables (the default)")
    parser.add_argument("script", nargs="?", metavar="SCRIPT", help="a file; standard input if it is left out")
    parser.add_argument("--replies", metavar="FILE", help="run nothing: this is what tsctl printed for the script")
    parser.add_argument("--par", action="store_true", help="by `tsctl par`")
    ranges = "with --csv or --json, the stale ranges of each answer instead of its rows"
    parser.add_argument("--ranges", action="store_true", help=ranges)
    snapshot_option(parser, "ask a copy of the journal, whoever holds it")
    style_options(parser)
    parser.set_defaults(call=run)


# ---- a script for tsctl run


def is_stream() -> bool:
    """Whether standard input comes bit by bit, and is no file."""
    return not stat.S_ISREG(os.fstat(sys.stdin.fileno()).st_mode)


def given_to(options: Namespace) -> Iterable[Given]:
    """The lines for tsctl. A file is read as a whole, so that nothing runs of a script that is refused."""
    if options.script:
        return given_of(programs.read(options.script))
    if is_stream():
        return given_from(sys.stdin.buffer)
    return given_of(programs.read_input())


class Conversation:
    """Gives a script to a program line by line, and prints each reply as it comes."""

    def __init__(self, program: Program, printer: Printer, signals: Signals, sender: Sender) -> None:
        self.program = program
        self.printer = printer
        self.signals = signals
        self.sender = sender
        self.has_left_out = False

    def converse(self, given: Iterable[Given]) -> int:
        """Runs all of the script, and gives the exit status."""
        number = 0
        try:
            for number, raw in given:
                self.print_reply(number, raw)
        except Ended as ended:
            programs.tell_signal(ended.status)
            return ended.status
        except Interrupted:
            say(f"line {number} has no reply: whether it has taken effect `tsctl log` tells")
            self.program.kill()
            return Stop(self.signals.noted or 0).status()
        except Stop as stop:
            return stop.status()
        return self.program.end() or int(self.has_left_out)

    def print_reply(self, number: int, raw: bytes) -> None:
        """Prints the reply to a line. One that can't be translated isn't sent, which is told."""
        try:
            raw = self.sender.sent(number, raw)
        except NotSent as error:
            say(f"line {number} wasn't sent: {error}")
            self.has_left_out = True
            return
        if line_of(raw, number):
            reply = self.ask(number, raw)
            self.sender.learn(reply)
            self.printer.print(reply)
            sys.stdout.flush()

    def ask(self, number: int, raw: bytes) -> Reply:
        """The reply to a line. A signal that comes meanwhile counts behind it."""
        self.signals.is_asking = True
        try:
            return self.program.ask(raw, number)
        finally:
            self.signals.is_asking = False


def run_script(options: Namespace, printer: Printer) -> int:
    """Runs a script; gives the exit status."""
    given = given_to(options)
    if isinstance(given, list):
        check_scales(options, printer.schema, given)
    sender = Sender(options, printer.schema, printer.names())
    with folder_of(options, given) as folder, Signals() as signals, interrupted(), \
            Program(folder, signals.is_given_up) as program:
        status = Conversation(program, printer, signals, sender).converse(given)
    if unused := printer.unused_scale():
        say(f"--scale {unused}: no answer has had such a column to scale")
        return status or UNUSED
    return status


def folder_of(options: Namespace, given: Iterable[Given]) -> AbstractContextManager[Path]:
    """The folder in which a script runs: a copy if one is asked for, or if the script only asks and another process
    holds the folder. Others, and what comes bit by bit, need a folder that nobody else holds."""
    folder = Path(options.folder or ".")
    if isinstance(given, list):
        script = b"\n".join(line.raw for line in given)
        if options.snapshot or asks_only(script):
            return folder_to_ask(folder, script, options.snapshot)
    elif options.snapshot:
        raise Trouble("--snapshot takes a script from a file")
    require_free(folder, WAY_ON)
    return nullcontext(folder)


def check_scales(options: Namespace, schema: Schema, given: list[Given]) -> None:
    """Refuses the scale of a column that neither the journal nor the script names, or that is only a time."""
    outputs = schema.outputs.values()
    known = {name for output in outputs for name in output.names}
    values = {name for output in outputs for place, name in enumerate(output.names) if place not in output.times}
    for name, power in options.scale:
        if options.times and name in known - values:
            raise Trouble(f"--scale {name}={power}: {name} is a time, and --times says its unit; nothing was run")
        word = re.compile(rb"\b" + re.escape(name.encode()) + rb"\b", re.IGNORECASE)
        if name not in known and not any(word.search(line.raw) for line in given):
            raise Trouble(f"--scale {name}={power}: no column is called {name}; nothing was run")


# ---- replies that come as a whole


def of_par(script: bytes) -> bytes:
    """A script in which each statement has one line: that of its first one, so that all have their numbers."""
    lines = [b""] * (script.count(b"\n") + 1)
    for number, raw in given_of(script):
        lines[number - 1] = raw
    return b"\n".join(lines)


def print_all(printer: Printer, lines: list[Line], output: bytes) -> Iterator[Reply]:
    """Prints the replies to these lines, and gives each of them."""
    for reply in replies_of(lines, output.decode("ascii", "replace").split("\n")[:-1]):
        printer.print(reply)
        yield reply


def print_kept(options: Namespace, printer: Printer, script: bytes) -> int:
    """Prints the replies that a file has, which are those to all lines; gives the status that tsctl ended with."""
    lines = in_order_of_par(lines_of(script)) if options.par else lines_of(script)
    refused = [bool(reply.fault()) for reply in print_all(printer, lines, programs.read(options.replies))]
    if len(refused) < len(lines):
        raise Trouble(f"{options.replies} has no reply to line {lines[len(refused)].number} of the script")
    return int(any(refused))


def run_par(options: Namespace, printer: Printer, script: bytes) -> int:
    """Runs a script by `tsctl par`; gives the exit status."""
    require_free(options.folder or ".", WAY_ON)
    sender = Sender(options, printer.schema, printer.names())
    try:
        script = b"\n".join(sender.sent(number, raw) for number, raw in enumerate(of_par(script).split(b"\n"), 1))
    except NotSent as error:
        raise Trouble(f"nothing was run: {error}") from None
    status, output = programs.call(["par"], script, options.folder or ".")
    for reply in print_all(printer, in_order_of_par(lines_of(script)), output):
        sender.learn(reply)
    return status


def run(options: Namespace) -> int:
    """Runs a script, or takes the replies that are given, and prints them; gives the exit status."""
    if options.ranges and not options.form:
        raise Trouble("--ranges goes with --csv or --json")
    if options.ranges and options.form == "answers":
        raise Trouble("--json=answers has the ranges of each answer, and needs no --ranges")
    schema, folder = Schema(), Path(options.folder or ".")
    if not options.replies or options.folder:
        learn_folder(schema, folder)
    printer = Printer(schema, style_of(options, Names.read(folder)), options.form, has_ranges=options.ranges)
    if not options.replies or options.folder:
        printer.drops = JournalDrops(folder)
    if not (options.replies or options.par):
        return run_script(options, printer)
    script = programs.read(options.script) if options.script else programs.read_input()
    return print_kept(options, printer, script) if options.replies else run_par(options, printer, script)
