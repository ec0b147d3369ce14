"""Checks that words which were replaced by others don't come back. words.tsv has them.

    words.py            all pages, tools and names, but for the files that words.tsv leaves for later
    words.py --all      these files, too

What isn't checked: comments of the crates' code, and definitions and proofs.
"""

import re
import sys
from collections.abc import Iterator
from dataclasses import dataclass
from pathlib import Path

from sources import CRATES, TOP, crate_names

TABLE = Path(__file__).with_name("words.tsv")
CODE = re.compile(r"`[^`\n]*`")
FENCE = re.compile(r"^```.*?^```", re.M | re.S)
ITEM = re.compile(r"^\s*(?:pub(?:\(crate\))? )?(?:ghost )?(fn|struct|enum|trait|type|const|mod) (\w+)", re.M)
PART = re.compile(r"[A-Z]?[a-z]+|[A-Z]+(?![a-z])|\d+")
PARTICIPLE = re.compile(r"[a-z]+ed|made|told|met|built|found|left|held|sent|taken|given|seen|known|chosen|written")
GLOBS = """
    README.md CHANGES.md docs/*.md crates/README.md crates/*/README.md must-fail/README.md tests/README.md
    examples/README.md bench/README.md trials/README.md bin/* tools/tsq tools/tsqlib/**/*.py tools/tsqlib/page/*
""".split()


@dataclass(frozen=True)
class Row:
    """A line of the table."""

    kind: str
    refused: str
    instead: str
    passing: str


def rows(kind: str) -> list[Row]:
    """Returns the lines of the table of one kind."""
    lines = [line for line in TABLE.read_text().splitlines() if line and not line.startswith("#")]
    found = [Row(*(line.split("\t") + ["", "", ""])[:4]) for line in lines]
    return [row for row in found if row.kind == kind]


def texts(everything: bool) -> list[Path]:
    """Returns the files whose words are checked, in order."""
    later = [] if everything else [row.refused for row in rows("later")]
    files = sorted({path for pattern in GLOBS for path in TOP.glob(pattern) if path.is_file()})
    return [path for path in files if not any(path.relative_to(TOP).match(name) for name in later)]


def wrong_words(path: Path) -> Iterator[str]:
    """Yields the replaced words of a file, each with its place."""
    patterns = [(row, re.compile(rf"\b(?:{row.refused})\b", re.I)) for row in rows("text")]
    text = FENCE.sub(lambda block: "\n" * block.group().count("\n"), path.read_text(errors="replace"))
    for number, line in enumerate(text.splitlines(), 1):
        plain = CODE.sub("", line)
        for row, pattern in patterns:
            rest = re.sub(row.passing, "", plain, flags=re.I) if row.passing else plain
            if found := pattern.search(rest):
                yield f'{path.relative_to(TOP)}:{number}: "{found.group()}": write {row.instead}'


def items() -> Iterator[tuple[str, str, str]]:
    """Yields the file, the kind and the name of each function, type, constant and module."""
    for crate in crate_names():
        for path in sorted((CRATES / crate / "src").glob("*.rt")):
            for kind, name in ITEM.findall(path.read_text()):
                yield f"{crate}/src/{path.name}", kind, name


def wrong_names() -> Iterator[str]:
    """Yields the names with replaced parts, and functions that are named by one participle."""
    parts = {row.refused: row for row in rows("part")}
    fixed = set(" ".join(row.passing for row in rows("participle")).split())
    for file, kind, name in items():
        for part in (found.lower() for found in PART.findall(name)):
            if part in parts and name not in parts[part].passing.split():
                yield f"{file}: {name}: write {parts[part].instead}"
        if kind == "fn" and PARTICIPLE.fullmatch(name) and name not in fixed:
            yield f"{file}: {name}: a participle; write a verb, or a noun for the value"


def main() -> int:
    """Prints all complaints."""
    everything = sys.argv[1:] == ["--all"]
    found = [wrong for path in texts(everything) for wrong in wrong_words(path)] + list(wrong_names())
    print("\n".join(found) or "no replaced word")
    return 1 if found else 0


if __name__ == "__main__":
    sys.exit(main())
