"""The optimized program: the module that `rt try` makes, compiled in parts with optimizations, and linked."""
import os
import shutil
from pathlib import Path
from typing import Any, Iterator

from . import bitcode, kit
from .calls import Progress, Words, call, call_all
from .kit import NotAsNeeded

LEVEL = "-O1"
# The same number everywhere, so that everybody runs, and tests, the same program.
PARTS = 4
# Bytes of bitcode: functions up to here are in each part, so that they can be inlined there.
SMALL = 800


def build(file: Path, crate: Path, folder: Path, progress: Progress) -> bool:
    """Builds the program, and says whether the sources let it. What the toolchain says of them is printed."""
    toolchain = kit.installed()
    own = kit.make(toolchain, folder)
    progress.step("read", "1 of 3, reading the sources")
    if not lower(own, crate, folder, progress):
        return False
    words, target = compiler_words(own.kept)
    link: Words = [toolchain.link, "--target", target, "--toolchain", toolchain.top / "toolchain", "-o", "program"]
    for names in ways(own.kept):
        progress.step("compile", "2 of 3, compiling")
        compiles: list[Words] = [[toolchain.clang, *words_for(name, words)] for name in names]
        are_compiled = call_all(compiles, len(os.sched_getaffinity(0)), progress, cwd=own.kept)
        progress.step("link", "3 of 3, linking")
        objects = [f"{name}.o" for name in names]
        if are_compiled and runs(own.kept, [*link, *objects, *toolchain.archives], progress):
            shutil.copy(own.kept / "program", file)
            return True
    raise NotAsNeeded("its compiler or its linker refuses the module")


def runs(kept: Path, link: Words, progress: Progress) -> bool:
    """Links the program, and says whether it runs."""
    return call(link, progress, cwd=kept) == 0 and call(["./program", "check"], progress, cwd=kept) == 0


def lower(own: kit.Kit, crate: Path, folder: Path, progress: Progress) -> bool:
    """Has `rt try` make the module, and says whether the sources let it."""
    with open(folder / "said", "w+", errors="replace") as said:
        how: dict[str, Any] = {
            "cwd": crate,
            "env": {**os.environ, "TMPDIR": str(folder)},
            "stdout": said,
            "stderr": said,
        }
        status = call([own.rt, "try", "--steps", "1", "--", "check"], progress, **how)
        if (own.kept / "module.bc").is_file():
            return True
        # If there is a module, it only says that the compiler has failed.
        said.seek(0)
        print(said.read(), end="", flush=True)
    if status == 1:
        return False
    raise NotAsNeeded("rt try gave no module to compile")


def compiler_words(kept: Path) -> tuple[list[str], str]:
    """The words by which `rt try` calls its compiler, with optimizations and without the sanitizer, and the target."""
    words = (kept / "words").read_text().splitlines()
    targets = [word.partition("=")[2] for word in words if word.startswith("--target=")]
    if words.count("-O0") != 1 or not {"module.bc", "module.o"} <= {*words} or len(targets) != 1:
        raise NotAsNeeded("rt try calls its compiler in another way")
    return [LEVEL if word == "-O0" else word for word in words if word != "-fsanitize=address"], targets[0]


def words_for(name: str, words: list[str]) -> list[str]:
    """The compiler's words for a part of the module."""
    files = {"module.bc": f"{name}.bc", "module.o": f"{name}.o"}
    return [files.get(word, word) for word in words]


def ways(kept: Path) -> Iterator[list[str]]:
    """What to compile, by names of files: the module's parts, and if that can't be done, the module as one."""
    try:
        module = bitcode.read((kept / "module.bc").read_bytes())
        for number, part in enumerate(bitcode.cut(module, PARTS, SMALL)):
            (kept / f"part{number}.bc").write_bytes(part)
        yield [f"part{number}" for number in range(PARTS)]
        print("build: its parts don't make a program, so the module is compiled as one", flush=True)
    except (bitcode.NotAsExpected, IndexError) as why:
        print(f"build: the module is compiled as one, since it can't be cut: {why}", flush=True)
    yield ["module"]
