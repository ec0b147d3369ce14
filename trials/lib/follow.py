"""The companion's follower, which keeps a copy of the journal and lets questions be answered on it."""
import os
import sys
from pathlib import Path

from program import TOP, Ran, call

sys.path.insert(0, str(TOP / "tools"))
from tsqlib import follower  # noqa: E402

# A follower makes images only of journals that are longer than those of most lives.
follower.ENOUGH = 2_000


class Following:
    """A follower of a folder, through all that happens to its journal."""

    def __init__(self, command: Path, folder: Path) -> None:
        self.command = command
        os.environ["TSCTL"] = str(command)
        self.follower = follower.Follower(folder)

    def step(self) -> int:
        """Takes what is new, and gives the position of the copy."""
        self.follower.step()
        return self.follower.position

    def ask(self, script: bytes) -> Ran:
        return call(self.command, ["run"], self.follower.folder, script)

    def close(self) -> None:
        self.follower.close()
