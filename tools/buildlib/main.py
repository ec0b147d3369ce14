"""What tools/build does with its words."""
import argparse
import shutil
import signal
import sys
import tempfile
from pathlib import Path

from . import checked, optimized
from .calls import ENDING, Progress
from .kit import NotAsNeeded

TOP = Path(__file__).resolve().parents[2]
CRATE = TOP / "crates/tsctl"
SIGNALS = (signal.SIGINT, signal.SIGTERM, signal.SIGHUP)


def say(what: str, progress: Progress) -> None:
    """Says a line on standard error, and in what was said by the toolchain."""
    progress.clear()
    for stream in (sys.stderr, sys.stdout):
        print(f"build: {what}", file=stream, flush=True)


def build(file: Path, is_checked: bool, folder: Path, progress: Progress) -> bool:
    """Builds the program that is wanted, or the checked one if the toolchain lets it build no other."""
    if not is_checked:
        try:
            return optimized.build(file, CRATE, folder, progress)
        except (NotAsNeeded, OSError) as why:
            say(f"not optimized, since the toolchain isn't as that needs it ({why}): "
                "the program that checks each access is built", progress)
    (folder / "checked").mkdir()
    return checked.build(file, CRATE, folder / "checked", progress)


def main() -> int:
    parser = argparse.ArgumentParser(prog="tools/build", description="Builds tsctl without proofs, into a file.")
    parser.add_argument("--checked", action="store_true", help="the program that checks each access of memory")
    parser.add_argument("file", metavar="FILE", type=Path)
    options = parser.parse_args()
    if not shutil.which("rt"):
        sys.exit("build: the command rt isn't there: README.md names the toolchain")
    for number in SIGNALS:
        signal.signal(number, ENDING.handle)
    file = options.file.resolve()
    progress = Progress(file.parent / "build.times")
    with tempfile.TemporaryDirectory(prefix="tsctl-build-") as named:
        is_built = build(file, options.checked, Path(named).resolve(), progress)
    progress.clear()
    if not is_built:
        print("no program was built", flush=True)
        return 1
    # Everybody on the machine may run it.
    file.chmod(0o755)
    progress.keep()
    return 0
