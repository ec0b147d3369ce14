"""A disk of a few hundred kilobytes, in a mount namespace of its own, for a program that fills it."""
from __future__ import annotations

import functools
import subprocess
from pathlib import Path

SIZE = "1m"
FILLER = 500_000
# Mounts a disk in a folder, fills a part of it, and becomes the program of the further words.
SCRIPT = f"""set -e
mount -t tmpfs -o size={SIZE} small "$1"
head -c {FILLER} /dev/zero > "$1/filler"
shift
exec "$@"
"""


@functools.cache
def namespace() -> list[str] | None:
    """The words that run a program where it may mount; nothing if the machine allows none."""
    for words in (["unshare", "-m"], ["unshare", "-r", "-m"]):
        mounting = [*words, "sh", "-c", 'mount -t tmpfs none "$1"', "sh", "/mnt"]
        try:
            if subprocess.run(mounting, stdin=subprocess.DEVNULL, capture_output=True).returncode == 0:
                return words
        except OSError:
            return None
    return None


def within(folder: str) -> list[str]:
    """The words that run a program with a small disk as this folder."""
    return [*(namespace() or []), "sh", "-c", SCRIPT, "sh", folder]


def make_room(process: int, folder: str) -> None:
    """Removes what fills a part of the disk of a process."""
    Path(f"/proc/{process}/root{folder}/filler").unlink()
