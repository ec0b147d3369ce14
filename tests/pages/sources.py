"""The names that the crates' sources define, for checks of pages."""

import os
import re
from collections import defaultdict
from dataclasses import dataclass, field
from functools import cache
from pathlib import Path

TOP = Path(os.environ.get("TSCTL_TOP") or Path(__file__).resolve().parents[2])
CRATES = TOP / "crates"

_CODE_ITEM = re.compile(r"^\s*(?:pub(?:\(crate\))? )?(?:ghost )?(?:fn|struct|enum|trait|type|const|mod) (\w+)", re.M)
_CODE_PART = re.compile(r"^    (?:pub )?([A-Za-z]\w*)(?::| \{|\(|,$)", re.M)
_GHOST = re.compile(r"^\s*ghost (\w+)(?: =|:)", re.M)
_FUNCTION = re.compile(r"^\s*(?:pub(?:\(crate\))? )?(?:ghost )?fn (\w+)")
_CLAUSE = re.compile(r"^\s+(?:ensures|requires) (\w+)")
_DEFINITION = re.compile(r"^\s*(?:(?:pub|abbrev|opaque|record|data|ghost|postulate) )*(\S+) (?:\(.*\) )?:", re.M)
_HEAD = re.compile(r"^\s*(?:(?:pub|abbrev|opaque) )*(?:record|data) (\w+)", re.M)
_MODULE = re.compile(r"^(?:pub )?mod (\w+);", re.M)


@dataclass
class Names:
    """What some crates define."""

    defined: set[str] = field(default_factory=set)
    clauses: dict[str, set[str]] = field(default_factory=lambda: defaultdict(set))


def crate_names() -> list[str]:
    """Returns the names of all crates, in order."""
    return sorted(folder.name for folder in CRATES.iterdir() if (folder / "src").is_dir())


def modules_of(crate: str) -> list[str]:
    """Returns the modules that a crate declares, or `main` for a program."""
    root = CRATES / crate / "src" / "lib.rt"
    return _MODULE.findall(root.read_text()) if root.exists() else ["main"]


def _add_code(names: Names, text: str) -> None:
    names.defined.update(_CODE_ITEM.findall(text))
    names.defined.update(_CODE_PART.findall(text))
    names.defined.update(_GHOST.findall(text))
    function = ""
    for line in text.splitlines():
        if found := _FUNCTION.match(line):
            function = found.group(1)
        elif found := _CLAUSE.match(line):
            names.clauses[function].add(found.group(1))
            names.defined.add(found.group(1))


@cache
def names_of(crate: str) -> Names:
    """Returns what one crate defines: code, clauses, definitions and lemmas."""
    names = Names({crate, *modules_of(crate)})
    for path in (CRATES / crate / "src").glob("*.rt"):
        _add_code(names, path.read_text())
    for path in [*(CRATES / crate).glob("specs/*.antt"), *(CRATES / crate).glob("proofs/*.antt")]:
        text = path.read_text()
        names.defined.add(path.stem)
        names.defined.update(_DEFINITION.findall(text))
        names.defined.update(_HEAD.findall(text))
    return names


@cache
def all_names() -> Names:
    """Returns what all crates define together."""
    together = Names()
    for crate in crate_names():
        names = names_of(crate)
        together.defined |= names.defined
        for function, clauses in names.clauses.items():
            together.clauses[function] |= clauses
    return together
