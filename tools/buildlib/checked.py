"""The program that checks each access of memory: the one that `rt try` builds and runs."""
import os
import shutil
import signal
import subprocess
import tempfile
from pathlib import Path
from typing import Any

from .calls import Progress, call

# `rt try` removes the program once it has ended, so it is given work for some seconds. It runs the program by an
# interpreter first, which one step is enough for.
ROWS = ", ".join(f"({at})" for at in range(1000))
WORK = ("a: CREATE TABLE m (time BIGINT)\na: SELECT create_hypertable('m', 'time', chunk_time_interval => 1000)\n"
        + 500 * f"a: INSERT INTO m VALUES {ROWS}\n")


class Taker:
    """Takes the program while `rt try` runs it, and ends the check of names that is begun beside the build: that would
    only give a hint, which bin/prove gives too, and takes a processor, or half of one, from the build."""

    def __init__(self, file: Path, folder: Path) -> None:
        self.file, self.folder, self.has_ended_hints = file, folder, False

    def is_enough(self, tried: "subprocess.Popen[bytes]") -> bool:
        """Whether the program is taken."""
        if program := program_below(self.folder):
            shutil.copy(program, self.file)
            return True
        self.has_ended_hints = self.has_ended_hints or ends_hints(tried.pid)
        return False


def program_below(folder: Path) -> Path | None:
    """The program that runs somewhere below a folder, once it has made its journal."""
    for journal in folder.glob("*/*/tsctl.journal"):
        return journal.with_name("program")
    return None


def ends_hints(tried: int) -> bool:
    """Ends the check of names that a process has begun, and says whether it was there."""
    for folder in Path("/proc").glob("[0-9]*"):
        try:
            parent = int((folder / "stat").read_text().rpartition(")")[2].split()[1])
            words = (folder / "cmdline").read_bytes().split(b"\0")
            if parent == tried and b"no function" in words:
                os.kill(int(folder.name), signal.SIGKILL)
                return True
        except (OSError, ValueError, IndexError):
            continue
    return False


def build(file: Path, crate: Path, folder: Path, progress: Progress) -> bool:
    """Builds the program, and says whether it could."""
    progress.step("checked", "building the program that checks each access")
    taker = Taker(file, folder)
    with tempfile.TemporaryFile() as script:
        script.write(WORK.encode())
        script.seek(0)
        how: dict[str, Any] = {"cwd": crate, "env": {**os.environ, "TMPDIR": str(folder)}, "stdin": script}
        words = ["rt", "try", "--steps", "1", "--", "run"]
        return call(words, progress, taker.is_enough, **how) is None
