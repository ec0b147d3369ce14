"""Checks that docs/PROOFS.md lists just those laws that no call's proof uses.

A law is a public function without arguments and with an empty body, or one that only calls other laws. It is used if
the proof of a function that is no law cites its lemma, directly or through other lemmas, or if a function calls it for
its proof. Laws about what scripts print (crates of SCRIPT_LAWS) are what a reader wants in the end, so what they use is
used too.
"""

import re
import sys
from collections import defaultdict
from collections.abc import Iterable, Iterator
from dataclasses import dataclass, field
from pathlib import Path

from sources import CRATES, TOP

PAGE = TOP / "docs" / "PROOFS.md"
TITLE = "Laws that no call uses"
SCRIPT_LAWS = {"answer_laws", "audit_laws", "event_laws", "image_runs"}

LAW = re.compile(r"^pub fn (\w+)\(\)\n(?:    [^\n]*\n)+\{([^}]*)\}$", re.M)
CALL = re.compile(r"\b(\w+)\(\)")
BY_PATH = re.compile(r"\b(\w+)((?:::\w+)*::proofs(?:::[\w-]+)+)")
MODIFIERS = re.compile(r"^(?:(?:pub|abbrev|opaque|unfoldable|record|data|ghost)\s+)*")
IMPORT = re.compile(r"^(?:pub )?use Rattle\.([\w.-]+?)\.\{([^}]*)\}", re.M)
ALIAS = re.compile(r"^(?:pub )?use Rattle\.([\w.-]+) as (\w+)", re.M)
INNER = re.compile(r"^ +(?:pub |abbrev |opaque |unfoldable )*(\S+) (?:[({].*[)}] )?:", re.M)
TOKEN = re.compile(r"[^\s(){}\[\],;.λ→]+")
COMMENT = re.compile(r"--.*")

File = tuple[str, ...]
Lemma = tuple[File, str]


@dataclass
class Proofs:
    """The files of definitions and proofs: the text of each name, and what each file imports."""

    texts: dict[Lemma, str] = field(default_factory=lambda: defaultdict(str))
    names: dict[File, set[str]] = field(default_factory=lambda: defaultdict(set))
    within: dict[Lemma, Lemma] = field(default_factory=dict)
    imports: dict[File, dict[str, Lemma]] = field(default_factory=dict)
    aliases: dict[File, list[File]] = field(default_factory=dict)

    def add(self, file: File, text: str) -> None:
        """Adds a file."""
        name = ""
        for line in text.splitlines():
            if not line or line.startswith(("--", "use ", "pub use ", "mod ", "pub mod ")):
                continue
            if not line[0].isspace():
                words = MODIFIERS.sub("", line).split()
                name = " ".join(words[:2]) if words[0] == "module" else words[0]
            self.texts[file, name] += line + "\n"
            self.names[file].add(name)
        for module in [name for name in self.names[file] if name.startswith("module ")]:
            for inner in INNER.findall(self.texts[file, module]):
                self.within[file, inner] = (file, module)
                self.names[file].add(inner)
        self.aliases[file] = [tuple(path.split(".")) for path, _ in ALIAS.findall(text)]
        self.imports[file] = {alias: lemma for alias, lemma in imported(text)}

    def cited(self, lemma: Lemma) -> Iterator[Lemma]:
        """Yields what a lemma's text names."""
        file, name = lemma
        if lemma in self.within:
            yield self.within[lemma]
            return
        for token in set(TOKEN.findall(COMMENT.sub("", self.texts.get(lemma, "")))):
            if token != name and token in self.names[file]:
                yield file, token
            if token in self.imports[file]:
                yield self.imports[file][token]
            yield from ((other, token) for other in self.aliases[file] if token in self.names.get(other, ()))

    def reached(self, roots: Iterable[Lemma]) -> set[Lemma]:
        """Returns these lemmas and all that they stand on."""
        found: set[Lemma] = set()
        left = list(roots)
        while left:
            lemma = left.pop()
            if lemma not in found:
                found.add(lemma)
                left += self.cited(lemma)
        return found

    def of_folder(self, folder: File) -> Iterator[Lemma]:
        """Yields the lemmas of the files of a folder."""
        for file, names in self.names.items():
            if file[: len(folder)] == folder:
                yield from ((file, name) for name in names)


def imported(text: str) -> Iterator[tuple[str, Lemma]]:
    """Yields the names that a file imports, each with its lemma."""
    for path, names in IMPORT.findall(text):
        for part in filter(None, map(str.strip, names.split(","))):
            name, _, alias = part.partition(" as ")
            yield (alias or name).strip(), (tuple(path.split(".")), name.strip())


@dataclass(frozen=True)
class Law:
    """A law by its crate, module and name."""

    crate: str
    module: str
    name: str

    @property
    def folder(self) -> File:
        """The folder of its answer."""
        return (self.crate, "proofs", self.module, self.name)


def read_proofs() -> Proofs:
    """Returns what the crates' definitions and proofs say."""
    proofs = Proofs()
    for path in sorted(CRATES.rglob("*.antt")):
        parts = path.relative_to(CRATES).parts
        if "out" not in parts:
            proofs.add((*parts[:-1], path.stem), path.read_text())
    return proofs


def lemmas_by_path(crate: str, text: str) -> Iterator[Lemma]:
    """Yields the lemmas that attributes of a source name by their paths."""
    for first, rest in BY_PATH.findall(text):
        *file, name = f"{crate if first == 'crate' else first}{rest}".split("::")
        yield tuple(file), name


def unused_laws(proofs: Proofs) -> list[Law]:
    """Returns the laws that no call's proof uses, in order."""
    bodies: dict[Law, str] = {}
    called: set[str] = set()
    roots: list[Lemma] = []
    for path in sorted(CRATES.glob("*/src/*.rt")):
        crate, text = path.parts[-3], path.read_text()
        bodies.update({Law(crate, path.stem, name): body for name, body in LAW.findall(text)})
        called.update(CALL.findall(LAW.sub("", text)))
        roots += lemmas_by_path(crate, text)
    used: set[Law] = set()
    left = [law for law in bodies if law.name in called or law.crate in SCRIPT_LAWS]
    while left:
        law = left.pop()
        if law not in used:
            used.add(law)
            left += [other for other in bodies if other.name in CALL.findall(bodies[law])]
    folders = {law.folder for law in bodies} - {law.folder for law in used}
    is_answer = (file for file in proofs.names if file[1] == "proofs" and len(file) > 3 and file[:4] not in folders)
    roots += ((file, name) for file in is_answer for name in proofs.names[file])
    reached = proofs.reached(roots)
    rest = sorted(bodies.keys() - used, key=lambda law: (law.crate, law.name))
    return [law for law in rest if not any(is_lemma(lemma) and lemma in reached for lemma in own_lemmas(proofs, law))]


def own_lemmas(proofs: Proofs, law: Law) -> Iterator[Lemma]:
    """Yields the lemmas that a law's answer cites."""
    for lemma in proofs.of_folder(law.folder):
        yield from proofs.cited(lemma)


def is_lemma(lemma: Lemma) -> bool:
    """Tells a lemma from a definition and from a goal."""
    file, _ = lemma
    return file[1] == "proofs" and "Goals" not in file


def listed_laws() -> list[tuple[str, str]]:
    """Returns the laws of the page's list, by crate and name."""
    section = PAGE.read_text().split(f"\n## {TITLE}\n", 1)[1].split("\n## ", 1)[0]
    lines = [re.findall(r"`(\w+)`", line) for line in section.splitlines() if line.startswith("- ")]
    return [(crate, name) for crate, *names in lines for name in names]


def main() -> int:
    """Prints the laws that the list lacks, and those that it has too many."""
    unused = [(law.crate, law.name) for law in unused_laws(read_proofs())]
    if sys.argv[1:] == ["--list"]:
        for crate in dict.fromkeys(crate for crate, _ in unused):
            print(f"- `{crate}`:", ", ".join(f"`{name}`" for other, name in unused if other == crate))
        return 0
    listed = listed_laws()
    found = [f"{crate}: {name} is used by no call" for crate, name in unused if (crate, name) not in listed]
    found += [f"{crate}: {name} is used" for crate, name in listed if (crate, name) not in unused]
    print("\n".join(found) or "the list has just the laws that no call uses")
    return 1 if found else 0


if __name__ == "__main__":
    sys.exit(main())
