"""Checks that pages stay as short as they are: all pages, the choices of DECISIONS, and the crates' READMEs."""

import re
import sys
from collections.abc import Iterator

from sources import CRATES, TOP, crate_names

PAGE_WORDS = {
    "README.md": 1200,
    "CHANGES.md": 1420,
    "crates/README.md": 1310,
    "docs/ARCHITECTURE.md": 1940,
    "docs/COLUMNS.md": 1100,
    "docs/CONTRIBUTING.md": 2020,
    "docs/DECISIONS.md": 3660,
    "docs/FROM_TIMESCALEDB.md": 1310,
    "docs/GLOSSARY.md": 960,
    "docs/JOURNAL.md": 3670,
    "docs/MODEL.md": 2450,
    "docs/PERFORMANCE.md": 2060,
    "docs/PROOFS.md": 960,
    "docs/RECIPES.md": 4330,
    "docs/RELIABILITY.md": 1630,
    "docs/SERVE.md": 1300,
    "docs/SQL.md": 9040,
    "docs/TSQ.md": 2100,
}
CRATES_WORDS = 9930
CHOICE_WORDS = 12
REASON_SENTENCES = 3
MODULE_WORDS = 12
CRATE_LINES = 50

CHOICE = re.compile(r"^- \*\*(.*?)\*\*(.*)$", re.M)
SENTENCE_END = re.compile(r"[.!?](?= |$)")


def words_of(page: str) -> int:
    """Returns how many words a page has, with the signs between the columns of its tables."""
    return len((TOP / page).read_text().split())


def long_pages() -> Iterator[str]:
    """Yields the pages that have too many words or no limit, and whether the crates' READMEs have too many."""
    pages = ["README.md", "CHANGES.md", "crates/README.md", *(f"docs/{page.name}" for page in TOP.glob("docs/*.md"))]
    for page in sorted(pages):
        if page not in PAGE_WORDS:
            yield f"{page}: no limit of its words"
        elif words_of(page) > PAGE_WORDS[page]:
            yield f"{page}: {words_of(page)} words, at most {PAGE_WORDS[page]}"
    words = sum(words_of(f"crates/{crate}/README.md") for crate in crate_names())
    if words > CRATES_WORDS:
        yield f"crates/*/README.md: {words} words, at most {CRATES_WORDS}"


def long_choices() -> Iterator[str]:
    """Yields the choices whose name or reason is too long."""
    for choice, reason in CHOICE.findall((TOP / "docs" / "DECISIONS.md").read_text()):
        if len(choice.split()) > CHOICE_WORDS:
            yield f"docs/DECISIONS.md: more than {CHOICE_WORDS} words in: {choice}"
        if len(SENTENCE_END.findall(reason)) > REASON_SENTENCES:
            yield f"docs/DECISIONS.md: more than {REASON_SENTENCES} sentences after: {choice}"


def long_modules(crate: str) -> Iterator[str]:
    """Yields the lines of a crate's list of modules that say too much, and whether its README is too long."""
    text = (CRATES / crate / "README.md").read_text()
    if text.count("\n") > CRATE_LINES:
        yield f"crates/{crate}/README.md: {text.count(chr(10))} lines, at most {CRATE_LINES}"
    section = re.search(r"^## Modules\n(.*?)(?=^## |\Z)", text, re.M | re.S)
    for line in section.group(1).splitlines() if section else []:
        if line.startswith("- ") and len(line.partition(": ")[2].split()) > MODULE_WORDS:
            yield f"crates/{crate}/README.md: more than {MODULE_WORDS} words: {line}"


def main() -> int:
    """Prints all that is too long."""
    found = [*long_pages(), *long_choices(), *(long for crate in crate_names() for long in long_modules(crate))]
    print("\n".join(found) or "no page is too long")
    return 1 if found else 0


if __name__ == "__main__":
    sys.exit(main())
