"""Builds a program for each bug: all bugs are planted in one copy of the sources, and each program gets a number.

A function of the lowest crate gives the number of the bug that is there. It is compiled on its own, so that no other
part of the program knows its number, and its object is changed for each program before that is linked.
"""
import os
import shutil
import subprocess
import sys
import tempfile
from collections.abc import Sequence
from pathlib import Path

from bugs import Bug
from program import TOP

sys.path.insert(0, str(TOP / "tools"))
from buildlib import bitcode, kit, optimized  # noqa: E402
from buildlib.calls import Progress, Words, call, call_all  # noqa: E402

# The number of no bug, which stands nowhere else in the program, and the name of the program without one.
BASE = 7_770_000
NO_BUG = "none"
LOWEST = "ts_schema"
CALL = f"{LOWEST}::planted()"
FUNCTION = f"""
/// The number of the bug that is planted.
pub fn planted() -> u64 {{
    {BASE}
}}
"""


def plant(bugs: Sequence[Bug], top: Path) -> None:
    """Plants bugs in a copy of the sources, with the numbers behind that of none."""
    lowest = top / f"crates/{LOWEST}/src/lib.rt"
    lowest.write_text(lowest.read_text() + FUNCTION)
    for number, bug in enumerate(bugs, BASE + 1):
        file = top / "crates" / bug.file
        text = file.read_text()
        if text.count(bug.plain) != 1:
            raise ValueError(f"{bug.name}: its old text stands {text.count(bug.plain)} times in {bug.file}")
        file.write_text(text.replace(bug.plain, bug.planted(number, CALL)))
    needing = {bug.file.partition("/")[0] for bug in bugs}
    lines = (top / "crates.txt").read_text().splitlines()
    (top / "crates.txt").write_text("".join(with_lowest(line, needing) + "\n" for line in lines))


def with_lowest(line: str, needing: set[str]) -> str:
    """A line of crates.txt. A crate that has a bug needs the lowest one."""
    name, _, rest = line.partition(":")
    return f"{line} {LOWEST}" if name in needing and LOWEST not in rest.split() else line


def compile_parts(own: kit.Kit, toolchain: kit.Toolchain, words: list[str], progress: Progress) -> list[str]:
    """Compiles the module, the function with the number as the last part, and gives the names of all objects."""
    module = bitcode.read((own.kept / "module.bc").read_bytes())
    names = []
    for number, part in enumerate(bitcode.cut(module, optimized.PARTS, optimized.SMALL, CALL.removesuffix("()"))):
        names.append(f"part{number}")
        (own.kept / f"part{number}.bc").write_bytes(part)
    compiles: list[Words] = [[toolchain.clang, *optimized.words_for(name, words)] for name in names]
    if not call_all(compiles, len(os.sched_getaffinity(0)), progress, cwd=own.kept):
        raise kit.NotAsNeeded("its compiler refuses the module")
    return [f"{name}.o" for name in names]


def with_number(whole: bytes, number: int) -> bytes:
    """The object of the function with another number."""
    old = BASE.to_bytes(4, "little")
    if whole.count(old) != 1:
        raise kit.NotAsNeeded(f"the number of no bug stands {whole.count(old)} times in the object")
    return whole.replace(old, number.to_bytes(4, "little"))


def build(bugs: Sequence[Bug], folder: Path) -> None:
    """Builds the programs into a folder, by the names of their bugs, and the one without a bug."""
    with tempfile.TemporaryDirectory(prefix="tsctl-build-") as named:
        work = Path(named).resolve()
        shutil.copytree(TOP / "crates", work / "sources/crates", ignore=shutil.ignore_patterns("out"))
        shutil.copy(TOP / "crates.txt", work / "sources")
        plant(bugs, work / "sources")
        (work / "own").mkdir()
        build_in(bugs, work / "sources/crates/tsctl", work / "own", folder)


def build_in(bugs: Sequence[Bug], crate: Path, work: Path, folder: Path) -> None:
    progress = Progress(folder / "build.times")
    toolchain = kit.installed()
    own = kit.make(toolchain, work)
    progress.step("read", "1 of 3, reading the sources")
    if not optimized.lower(own, crate, work, progress):
        raise kit.NotAsNeeded("the sources with the bugs aren't a program")
    words, target = optimized.compiler_words(own.kept)
    progress.step("compile", "2 of 3, compiling")
    objects = compile_parts(own, toolchain, words, progress)
    progress.step("link", "3 of 3, linking")
    last = own.kept / objects[-1]
    whole = last.read_bytes()
    link: Words = [toolchain.link, "--target", target, "--toolchain", toolchain.top / "toolchain", "-o", "program"]
    for number, name in enumerate([NO_BUG, *(bug.name for bug in bugs)], BASE):
        last.write_bytes(with_number(whole, number))
        if call([*link, *objects, *toolchain.archives], progress, cwd=own.kept, stdout=subprocess.DEVNULL):
            raise kit.NotAsNeeded("its linker refuses the objects")
        shutil.copy(own.kept / "program", folder / name)
    progress.clear()
    progress.keep()
