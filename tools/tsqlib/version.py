"""The version of tsctl that this companion belongs to."""
from __future__ import annotations

import re

from .programs import TOP

HEADING = re.compile(r"^## ([0-9][^ \n]*)", re.MULTILINE)


def version() -> str:
    """The latest version that CHANGES.md names."""
    try:
        found = HEADING.search((TOP / "CHANGES.md").read_text(encoding="utf-8"))
    except OSError:
        found = None
    return found[1] if found else "of an unknown version"
