"""The commands of the prompt, which begin with a backslash."""
from __future__ import annotations

import time
from argparse import ArgumentTypeError
from collections.abc import Callable
from pathlib import Path
from typing import TYPE_CHECKING

from . import describe
from .messages import Trouble
from .options import scale
from .printing import unit_of

if TYPE_CHECKING:
    from .prompt import Prompt

HELP = """\
Statements end with ;   A whole one on a line of its own needs none, except DELETE and drop_chunks.
They run in the session me; NAME: in front names another one.

  \\d               tables and aggregates          \\d NAME          how one is defined
  \\stale [NAME]    stale ranges of aggregates     \\watermark NAME  up to where one was refreshed
  \\policies        policies added here            \\i FILE          run the statements of a file
  \\watch [S]       ask the last query again every S seconds (2), until Ctrl-C
  \\x               rows as a list of columns, or as a table again
  \\timing          say how long each reply took, or no longer
  \\pset            how answers are shown: \\pset NAME VALUE with
                   format table|csv|json   times s|ms|us|off
                   places N   scale NAME=N   pager on|off   show on|off
  \\? or help       this                           \\q or quit       leave (or Ctrl-D)

Ctrl-C gives up what is typed, and ends a query that takes too long. docs/SQL.md has the statements."""
FORMATS = {"table": None, "csv": "csv", "json": "json"}
UNITS = {"s": "s", "ms": "ms", "us": "us", "off": None}
SWITCH = {"on": True, "off": False}


def one_of(text: str, choices: dict[str, object]) -> object:
    """What a word stands for among these."""
    if text not in choices:
        raise Trouble(f"wanted is one of {', '.join(choices)}")
    return choices[text]


# ---- what is there


def describe_all(prompt: Prompt, name: str) -> None:
    """`\\d`: the tables and aggregates, or how one is defined."""
    history = describe.definitions_in(prompt.talk.folder)
    if not name:
        rows = describe.relations(history)
        lines = describe.columns_of_rows(["name", "kind", "columns"], rows) if rows else ["no tables yet"]
    else:
        found = describe.definition(history, name.lower().strip("'\";"))
        if found is None:
            raise Trouble(f"no table and no aggregate is called {name}")
        lines = found
    prompt.show(lines)


def aggregates(prompt: Prompt, name: str) -> list[str]:
    """The aggregate of this name, or all."""
    name = name.lower().strip("'\";")
    if name and name not in prompt.schema.sources:
        raise Trouble(f"no aggregate is called {name}")
    return [name] if name else sorted(prompt.schema.sources)


def show_stale(prompt: Prompt, name: str) -> None:
    """`\\stale`: the stale ranges of aggregates, and those of dropped rows, which a refresh would lose."""
    unit, drops = prompt.printer.style.unit, prompt.printer.drops
    rows = []
    for view in aggregates(prompt, name):
        reply = prompt.talk.stale_ranges(view)
        reply = drops.parted(reply, prompt.schema.outputs[view].width) if drops else reply
        for word, ranges in (("dropped", reply.dropped), ("stale", reply.stale)):
            rows += [[view, word, *(describe.bound_text(end, unit) for end in bounds)] for bounds in ranges]
    lines = describe.columns_of_rows(["aggregate", "range", "from", "to"], rows)
    prompt.show(lines if rows else ["nothing is stale"])


def show_watermark(prompt: Prompt, name: str) -> None:
    """`\\watermark`: up to where aggregates were refreshed."""
    unit = prompt.printer.style.unit
    rows = []
    for view in aggregates(prompt, name):
        found = prompt.talk.watermark(view, prompt.schema)
        none = "none: no refresh has found a row yet"
        rows.append([view, none if found is None else describe.bound_text(found, unit)])
    prompt.show(describe.columns_of_rows(["aggregate", "watermark"], rows) if rows else ["no aggregates yet"])


def show_policies(prompt: Prompt, _rest: str) -> None:
    """`\\policies`: those that this run has added, since the journal holds none."""
    rows = [[session, statement] for session, statement in prompt.talk.policies]
    none = ["no policies: they last as long as the run that added them, and run by TICK"]
    prompt.show(describe.columns_of_rows(["session", "policy"], rows) if rows else none)


# ---- how it is shown


def toggle_expanded(prompt: Prompt, _rest: str) -> None:
    """`\\x`."""
    prompt.printer.is_expanded = not prompt.printer.is_expanded
    print(f"rows are shown as {'a list of columns' if prompt.printer.is_expanded else 'a table'}")


def toggle_timing(prompt: Prompt, _rest: str) -> None:
    """`\\timing`."""
    prompt.is_timing = not prompt.is_timing
    print(f"timing is {'on' if prompt.is_timing else 'off'}")


def set_format(prompt: Prompt, value: str) -> None:
    form = one_of(value, dict(FORMATS))
    assert form is None or isinstance(form, str)
    prompt.options.form = form
    prompt.printer.form = form


def set_times(prompt: Prompt, value: str) -> None:
    before, prompt.options.times = prompt.options.times, one_of(value, dict(UNITS))
    try:
        unit_of(prompt.options, prompt.names)
    except Trouble:
        prompt.options.times = before
        raise


def set_places(prompt: Prompt, value: str) -> None:
    if not value.isdecimal() or len(value) > 3:
        raise Trouble("wanted is a number from 0 to 999")
    prompt.options.places = int(value)


def set_scale(prompt: Prompt, value: str) -> None:
    try:
        prompt.options.scale = [*prompt.options.scale, scale(value)]
    except ArgumentTypeError as error:
        raise Trouble(str(error)) from None
    prompt.check_scales()


def set_pager(prompt: Prompt, value: str) -> None:
    prompt.printer.screen.has_pager = bool(one_of(value, dict(SWITCH)))


def set_show(prompt: Prompt, value: str) -> None:
    prompt.options.show = bool(one_of(value, dict(SWITCH)))


SETTINGS: dict[str, Callable[[Prompt, str], None]] = {
    "format": set_format, "times": set_times, "places": set_places, "scale": set_scale, "pager": set_pager,
    "show": set_show,
}  # fmt: skip


def set_option(prompt: Prompt, rest: str) -> None:
    """`\\pset`: how answers are shown."""
    name, _, value = rest.partition(" ")
    if name and name not in SETTINGS:
        raise Trouble(f"\\pset knows {', '.join(SETTINGS)}")
    if name:
        SETTINGS[name](prompt, value.strip())
        prompt.restyle()
    options, style, screen = prompt.options, prompt.printer.style, prompt.printer.screen
    scales = prompt.printer.names().scales | style.scales
    listed = " ".join(f"{column}={power}" for column, power in scales.items()) or "none"
    on = {True: "on", False: "off"}
    print(f"format {options.form or 'table'}, times {style.unit or 'off'}, places {style.places}, scale {listed},"
          f" pager {on[screen.has_pager]}, show {on[bool(options.show)]}")  # fmt: skip


# ---- what is run


def run_file(prompt: Prompt, rest: str) -> None:
    """`\\i`: the statements of a file, which may have sessions in front."""
    try:
        text = Path(rest.strip("'\"")).expanduser().read_bytes().decode("utf-8", "surrogateescape")
    except OSError as error:
        raise Trouble(f"{rest}: {error.strerror}") from None
    prompt.run_text(text)


def watch(prompt: Prompt, rest: str) -> None:
    """`\\watch`: the last query again and again."""
    try:
        seconds = float(rest or 2)
    except ValueError:
        raise Trouble(f"{rest}: wanted is a number of seconds") from None
    if not prompt.last_query or not 0.1 <= seconds <= 86400:
        raise Trouble("no query was asked yet" if not prompt.last_query else "wanted are seconds from 0.1 to 86400")
    try:
        while True:
            print(time.strftime("%Y-%m-%d %H:%M:%S"), f"every {seconds:g} s, until Ctrl-C")
            prompt.answer(prompt.last_query)
            time.sleep(seconds)
    except KeyboardInterrupt:
        print()


def print_help(_prompt: Prompt, _rest: str) -> None:
    """`\\?`."""
    print(HELP)


COMMANDS: dict[str, Callable[[Prompt, str], None]] = {
    "\\?": print_help, "\\h": print_help, "\\help": print_help, "\\d": describe_all, "\\dt": describe_all,
    "\\d+": describe_all,
    "\\stale": show_stale, "\\watermark": show_watermark, "\\policies": show_policies, "\\x": toggle_expanded,
    "\\timing": toggle_timing, "\\pset": set_option, "\\i": run_file, "\\watch": watch,
}  # fmt: skip


def run_command(prompt: Prompt, text: str) -> None:
    """Does what a command says."""
    word, _, rest = text.strip().partition(" ")
    command = COMMANDS.get(word.rstrip(";"))
    if command is None:
        raise Trouble(f"{word} is no command here; \\? has them")
    command(prompt, rest.strip().rstrip(";").strip())
