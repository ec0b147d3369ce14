"""Tries lives: runs them in a folder, says what failed, and makes it smaller."""
import shutil
import subprocess
import sys
import tempfile
import traceback
from collections import Counter
from contextlib import closing
from pathlib import Path
from typing import NamedTuple

from life import Life, life_text
from program import TOP, folder
from runner import Failure, Trial
from shrink import shrink

TIMES_WITH_THREADS = 3
SOURCE = TOP / "trials/lib/faults.c"


class Failed(NamedTuple):
    """A life that fails at a step, and what is wrong there."""

    life: Life
    failure: Failure

    def text(self, name: str) -> str:
        """It as a file that runs it again."""
        said = "".join(f"# {line}\n" for line in str(self.failure).splitlines())
        return f"# {name}\n{said}{life_text(self.life)}"


class Tries:
    """The program that is tried, with the library that lets its calls fail."""

    def __init__(self, command: Path) -> None:
        self.command = command
        self.seen: Counter[str] = Counter()
        self.library: Path | None = None
        if not shutil.which("cc"):
            print("there is no C compiler, so no call is made to fail", file=sys.stderr)
            return
        self.built = tempfile.TemporaryDirectory(prefix="tsctl-")
        self.library = Path(self.built.name) / "faults.so"
        subprocess.run(["cc", "-O2", "-shared", "-fPIC", "-o", self.library, SOURCE, "-ldl"], check=True)

    def close(self) -> None:
        if self.library:
            self.built.cleanup()

    def failure_of(self, life: Life, seen: Counter[str]) -> Failed | None:
        """What fails in a life: its steps up to the one that does."""
        with folder() as path:
            with closing(Trial(self.command, self.library, Path(path), seen)) as trial:
                return self.first_failure(trial, life)

    def first_failure(self, trial: Trial, life: Life) -> Failed | None:
        for count, step in enumerate(life, 1):
            try:
                trial.step(step)
            except Failure as failure:
                return Failed(life[:count], failure)
            except Exception:
                # What a trial can't even compare, as bytes that are no event, is wrong too.
                return Failed(life[:count], Failure("the trial itself", "an end", traceback.format_exc()))
        return None

    def life(self, life: Life, seconds: float) -> Failed | None:
        """Runs a life. One that fails is made smaller for so many seconds."""
        failed = self.failure_of(life, self.seen)
        if failed is None:
            return None
        smaller = shrink(failed.life, lambda other: self.fails(other) is not None, seconds)
        return self.fails(smaller) or failed

    def fails(self, life: Life) -> Failed | None:
        """What fails in a life. One with threads is tried some times, since they may take turns in another order."""
        times = TIMES_WITH_THREADS if any(step.word in ("par", "json") for step in life) else 1
        unseen: Counter[str] = Counter()
        return next((failed for _ in range(times) if (failed := self.failure_of(life, unseen))), None)
