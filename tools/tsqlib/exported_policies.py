"""The policies that a script adds, as TimescaleDB has them."""
from __future__ import annotations

import re
from collections.abc import Iterator
from typing import TYPE_CHECKING

from . import programs
from .history import History
from .messages import Trouble
from .postgres import interval
from .schema import Schema
from .scripts import given_of
from .translation import NotSent, Translator

if TYPE_CHECKING:
    from .export import Target

CALL = re.compile(
    r"select\s+(add_continuous_aggregate_policy|add_retention_policy)\s*\(\s*'(\w+)'\s*,(.*)\)\s*;?\s*", re.I
)
ARGUMENT = re.compile(r"\s*(\w+)\s*=>\s*(-?\d+|null)\s*", re.I)


def policies_of(name: str, history: History, target: Target) -> Iterator[str]:
    """The policies that the statements of a file add. Others are passed over."""
    relations = {table.name for table in history.tables if table.hyper} | {view.name for view in history.views}
    translator = Translator(Schema(), target.kinds.names, target.kinds.unit)
    for given in given_of(programs.read(name)):
        text = given.raw.decode("ascii", "replace")
        if "_policy" not in text:
            continue
        try:
            found = CALL.fullmatch(translator.translated(text).partition(":")[2].strip())
        except NotSent as error:
            raise Trouble(f"{name}: line {given.number}: {error}") from None
        if found and found[2].lower() in relations:
            yield policy(found[1].lower(), found[2].lower(), arguments_of(found[3]), target)
        elif found:
            raise Trouble(f"{name}: line {given.number}: the journal has no {found[2]}")


def arguments_of(text: str) -> dict[str, int | None]:
    """The arguments of a call by their names."""
    found = filter(None, map(ARGUMENT.fullmatch, text.split(",")))
    return {it[1].lower(): None if it[2].lower() == "null" else int(it[2]) for it in found}


def policy(call: str, relation: str, arguments: dict[str, int | None], target: Target) -> str:
    """A policy. How often it runs is by the wall clock there, so times need a unit."""
    unit = target.kinds.unit
    if not unit:
        raise Trouble("--policies needs --times s, ms or us, since TimescaleDB runs policies by the clock")
    words = [target.literal(relation)]
    for name, value in arguments.items():
        words.append(f"{name} => {'NULL' if value is None else interval(value, unit, False)}")
    return f"SELECT {call}({', '.join(words)});"
