"""The program that is tried or measured, folders in memory, and calls of the program in them."""
import os
import shutil
import subprocess
import sys
import tempfile
from collections.abc import Sequence
from pathlib import Path
from typing import NamedTuple

TOP = Path(__file__).resolve().parents[2]
MEMORY = Path("/dev/shm")
SOURCES = ("*.rt", "crates.txt")


class Ran(NamedTuple):
    """How a call ended: its status, which is negative after a signal, and what it wrote."""

    status: int
    out: bytes
    err: bytes


def newest_source() -> float:
    """When the latest of the sources was written."""
    files = [path for pattern in SOURCES for path in TOP.glob(f"crates/**/{pattern}") if "out" not in path.parts]
    return max(path.stat().st_mtime for path in [TOP / "crates.txt", *files])


def built(*kinds: str) -> Path:
    """The program that TSCTL names, or else the first of these kinds that is one of today's sources."""
    if named := os.environ.get("TSCTL"):
        return Path(shutil.which(named) or named).resolve()
    newest = newest_source()
    for kind in kinds:
        file = TOP / "crates/tsctl/out" / kind
        if file.exists() and file.stat().st_mtime >= newest:
            return file
    sys.exit(f"there is no program ({' or '.join(kinds)}) of these sources: bin/tsctl --help says how to build one")


def proved() -> Path:
    """The program that is measured."""
    return built("proved")


def program() -> Path:
    """The program that is tried: the proved one, or else the one without proofs."""
    return built("proved", "unproved")


def folder() -> tempfile.TemporaryDirectory[str]:
    """A folder in memory, if there is room for one, since most of a run is its waiting for a disk."""
    return tempfile.TemporaryDirectory(dir=MEMORY if os.access(MEMORY, os.W_OK) else None, prefix="tsctl-")


def cpu_time() -> float:
    """The seconds of CPU time that this process has taken, and the ended ones that it has called."""
    return sum(os.times()[:4])


def call(
    command: Path, words: Sequence[str], where: Path | str, given: bytes = b"", seconds: float = 120,
    more: dict[str, str] | None = None,
) -> Ran:
    """Calls the program in a folder, with more variables of the environment."""
    environment = {**os.environ, **(more or {})}
    ran = subprocess.run(
        [command, *words], cwd=where, input=given, capture_output=True, env=environment, timeout=seconds, check=False
    )
    return Ran(ran.returncode, ran.stdout, ran.stderr)
