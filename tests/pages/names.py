"""Checks that what pages name in backticks exists: functions, clauses, definitions, modules and files.

In a crate's README each name has to be one of the crates' sources. "`f`, `g` (`a`, `b`)" says that `a` and `b` are
clauses of one of these functions, and "Modules" lists the crate's modules, each once. In the pages of docs/ only names
with an underscore or "::", clauses and paths are checked, since these have words of the shell and of SQL too. What a
page, a comment or a script names as a section ("Limits" in `docs/SQL.md`, or a link with an anchor) is a heading there.
"""

import re
import sys
from collections.abc import Iterator
from pathlib import Path

from sources import CRATES, TOP, all_names, crate_names, modules_of

PAGES = ["ARCHITECTURE", "CONTRIBUTING", "DECISIONS", "GLOSSARY", "JOURNAL", "MODEL", "PROOFS"]

# Names of the toolchain, of its crates, of SQL, of commands and of texts, which no source of the repository defines.
OTHERS = set("""
    atomic_table fast_float serde_json jiff jiff_core json itoa arrayvec memchr indexmap rayon logbook std cmd
    create_hypertable drop_chunks time_bucket calendar_bucket add_retention_policy materialized_only
    add_continuous_aggregate_policy refresh_continuous_aggregate must_fail chunk_time_interval
    RATTLE_HOME GLIBC_TUNABLES BENCH_FOLDER TSCTL_TOP fdatasync MOST_ROWS mem forget
    run par log check checkpoint audit demo NOTHING CHECKPOINT YES TICK FINISH BEGIN COMMIT CALL SNAP CREATE SELECT
    true false min d jiff sqlite Err Ok None Some Send Sync
""".split())

CODE = re.compile(r"`([^`\n]+)`")
PATH = re.compile(r"^[A-Za-z_0-9.]+(/[A-Za-z_0-9.]+)+/?$")
NAME = re.compile(r"^[A-Za-z_]\w*(::[A-Za-z_]\w*)*$")
REFUSAL = re.compile(r"^E\d\d$")
CITING = """
    *.md */README.md crates/*/README.md crates/*/src/*.rt crates/*/specs/*.antt docs/*.md bin/* man/*/* tools/*
    tools/*/*.py tests/*/*.sh tests/*/*.py trials/* trials/lib/*.py bench/*
""".split()
SECTION_OF = re.compile(r'"([^"\\\n]+)\\?" (?:in|of) `?(docs/\w+\.md|README\.md)\b')
PAGE_AND_SECTION = re.compile(r'(docs/\w+\.md|README\.md)`?(?:,|[^".;\n]* under) "([^"\n]+)"')
ANCHOR = re.compile(r"\]\((?!https?:)([^)#\s]*)#([^)\s]+)\)")
HEADING = re.compile(r"^#+ +(.+)$", re.M)
CLAUSES = re.compile(r"((?:`[\w:]+`(?:, | and )?)+) \(((?:`\w+`(?:, )?)+)[,;)]")
FENCE = re.compile(r"^```.*?^```", re.M | re.S)


def blank_fences(text: str) -> str:
    """Returns the text with blocks of code emptied, and as many lines."""
    return FENCE.sub(lambda block: "\n" * block.group().count("\n"), text)


def path_exists(path: str, crate: str | None, line: str) -> bool:
    """Tells whether a path exists from the top, in the page's crate, or in a crate that the line names."""
    named = [crate, *CODE.findall(line), *re.findall(r"crates/(\w+)", line)]
    folders = [TOP, *(CRATES / name for name in named if name and NAME.match(name))]
    return any((folder / path).exists() for folder in folders)


def is_known(code: str) -> bool:
    """Tells whether each part of a name is defined somewhere."""
    return all(part in all_names().defined or part in OTHERS for part in code.split("::"))


def missing_in(line: str, crate: str | None) -> Iterator[str]:
    """Yields the names and paths of a line that don't exist."""
    for code in CODE.findall(line):
        if PATH.match(code) and "NAME" not in code:
            if not path_exists(code, crate, line):
                yield f"no file {code}"
        elif NAME.match(code) and not REFUSAL.match(code):
            if (crate or "_" in code or "::" in code) and not is_known(code):
                yield f"no name {code}"


def wrong_clauses(line: str) -> Iterator[str]:
    """Yields the clauses that a line gives to functions without them."""
    for functions, clauses in CLAUSES.findall(line):
        names = [code.rsplit("::", 1)[-1] for code in CODE.findall(functions)]
        known: set[str] = set().union(*(all_names().clauses.get(name, set()) for name in names))
        if known:
            unknown = (clause for clause in CODE.findall(clauses) if clause not in known)
            yield from (f"no clause {clause} of {', '.join(names)}" for clause in unknown)


def headings(page: Path) -> list[str]:
    """Returns the headings of a page as plain text."""
    text = blank_fences(page.read_text()) if page.exists() else ""
    return [heading.replace("`", "") for heading in HEADING.findall(text)]


def anchors(page: Path) -> list[str]:
    """Returns the anchors of a page's headings, as Markdown makes them."""
    return [re.sub(r"[^\w\- ]", "", heading.lower()).replace(" ", "-") for heading in headings(page)]


def wrong_sections(file: Path) -> Iterator[str]:
    """Yields the sections that a file names and that their page hasn't."""
    text = file.read_text(errors="replace")
    named = [*SECTION_OF.findall(text), *((section, page) for page, section in PAGE_AND_SECTION.findall(text))]
    yield from (f"{page} has no {section}" for section, page in named if section not in headings(TOP / page))
    for path, anchor in ANCHOR.findall(text) if file.suffix == ".md" else []:
        page = file.parent / path if path else file
        if anchor not in anchors(page):
            yield f"{page.relative_to(TOP)} has no #{anchor}"


def all_wrong_sections() -> Iterator[str]:
    """Yields the same for all pages, comments and scripts, each with its file."""
    for file in sorted({path for pattern in CITING for path in TOP.glob(pattern) if path.is_file()}):
        yield from (f"{file.relative_to(TOP)}: {wrong}" for wrong in wrong_sections(file))


def wrong_modules(text: str, crate: str) -> Iterator[str]:
    """Yields the modules that a README leaves out, lists twice or makes up."""
    section = re.search(r"^## Modules\n(.*?)(?=^## |\Z)", text, re.M | re.S)
    lines = section.group(1).splitlines() if section else []
    listed = [code for line in lines if line.startswith("- ") for code in CODE.findall(line.split(":", 1)[0])]
    for name in sorted(set(listed) ^ set(modules_of(crate))):
        yield f"module {name} is {'not there' if name in listed else 'left out'}"
    yield from (f"module {name} comes twice" for name in sorted(set(listed)) if listed.count(name) > 1)


def index_line(crate: str) -> str:
    """Returns the line that the index has for a crate: its README's first sentence."""
    paragraph = (CRATES / crate / "README.md").read_text().split("\n\n")[1]
    return f"- [`{crate}`]({crate}/README.md): {re.split(r'(?<=[.]) (?=[A-Z`])', paragraph.strip())[0]}"


def used_crates(crate: str, needs: dict[str, list[str]]) -> set[str]:
    """Returns a crate with all of the repository that it depends on, directly or not."""
    return {crate}.union(*(used_crates(other, needs) for other in needs[crate] if other in needs))


def wrong_index() -> Iterator[str]:
    """Yields the lines that the index of crates lacks, and its counts if they are wrong."""
    index = (CRATES / "README.md").read_text()
    lines = index.splitlines()
    parts = (line.split(":") for line in (TOP / "crates.txt").read_text().splitlines() if re.match(r"\w+:", line))
    needs = {name: others.split() for name, others in parts}
    counts = f"{len(used_crates('tsctl', needs))} of these {len(crate_names())} crates"
    if counts not in index:
        yield f"crates/README.md: no words {counts}"
    yield from (f"crates/README.md: no line {line}" for line in map(index_line, crate_names()) if line not in lines)


def wrong_lists() -> Iterator[str]:
    """Yields the scripts and steps that the index of their folder leaves out."""
    for index in (TOP / "examples/README.md", TOP / "tests/README.md"):
        text = index.read_text()
        files = [*index.parent.glob("**/*.sql"), *index.parent.glob("**/*.sh"), *index.parent.glob("steps/*")]
        names = {file.stem for file in files if file.parent.parent.name != "steps"}
        yield from (f"{index.relative_to(TOP)}: no line for {name}" for name in sorted(names) if name not in text)


def laws_left_out(crate: str) -> Iterator[str]:
    """Yields the laws of a crate that neither its README nor the page on the model has."""
    laws = CRATES / crate / "src" / "laws.rt"
    text = (CRATES / crate / "README.md").read_text() + (TOP / "docs" / "MODEL.md").read_text()
    found = re.findall(r"^pub fn (\w+)", laws.read_text(), re.M) if laws.exists() else []
    yield from (f"law {law} is left out" for law in found if f"{law}`" not in text)


def complaints(page: Path, crate: str | None) -> Iterator[str]:
    """Yields what is wrong with a page, each with its place."""
    place = page.relative_to(TOP)
    text = blank_fences(page.read_text())
    for number, line in enumerate(text.splitlines(), 1):
        for wrong in [*missing_in(line, crate), *wrong_clauses(line)]:
            yield f"{place}:{number}: {wrong}"
    if crate:
        yield from (f"{place}: {wrong}" for wrong in [*wrong_modules(text, crate), *laws_left_out(crate)])


def main() -> int:
    """Prints all complaints."""
    pages: list[tuple[Path, str | None]] = [(CRATES / name / "README.md", name) for name in crate_names()]
    pages += [(TOP / "docs" / f"{name}.md", None) for name in PAGES]
    found = [*wrong_index(), *wrong_lists(), *all_wrong_sections()]
    found += [wrong for page, crate in pages for wrong in complaints(page, crate)]
    print("\n".join(found) or "every name exists")
    return 1 if found else 0


if __name__ == "__main__":
    sys.exit(main())
