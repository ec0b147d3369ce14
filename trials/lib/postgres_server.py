"""A PostgreSQL of a trial's own.

PostgreSQL's `initdb` and `pg_ctl` have to be there. They don't run as root; there they are called as the user
`postgres`.
"""
from __future__ import annotations

import glob
import os
import shutil
import subprocess
from typing import IO


def program_of(name: str) -> str | None:
    """A program of PostgreSQL, which needn't be on the PATH; nothing if it isn't here."""
    return shutil.which(name) or next(iter(sorted(glob.glob(f"/usr/lib/postgresql/*/bin/{name}"), reverse=True)), None)


class Server:
    """A PostgreSQL in a folder, which nobody else sees."""

    def __init__(self, folder: str) -> None:
        self.folder = folder
        self.user = ["runuser", "-u", "postgres", "--"] if os.getuid() == 0 else []
        if self.user:
            shutil.chown(folder, "postgres")
        self.call("initdb", "-D", f"{folder}/data", "-A", "trust", "--no-sync")
        options = f"-k {folder} -c listen_addresses='' -c fsync=off"
        self.call("pg_ctl", "-D", f"{folder}/data", "-o", options, "-l", f"{folder}/log", "-w", "start")

    def dump(self, database: str, *words: str) -> bytes:
        """What pg_dump prints of a database."""
        front = [*self.user, "pg_dump", "-h", self.folder, *words, database]
        return subprocess.run(front, stdout=subprocess.PIPE, check=True, cwd=self.folder).stdout

    def call(self, program: str, *words: str) -> None:
        """Calls a program of PostgreSQL."""
        found = program_of(program) or program
        subprocess.run([*self.user, found, *words], check=True, stdout=subprocess.DEVNULL, cwd=self.folder)

    def words_of(self, program: str, *words: str) -> list[str]:
        """How a client of the server is called."""
        return [*self.user, program, "-h", self.folder, *words]

    def load(self, database: str, script: IO[bytes] | None) -> None:
        """Runs a script that comes bit by bit."""
        words = self.words_of("psql", "-d", database, "-qX", "-v", "ON_ERROR_STOP=1")
        subprocess.run(words, stdin=script, stdout=subprocess.DEVNULL, check=True, cwd=self.folder)

    def write_dump(self, database: str, file: IO[bytes]) -> None:
        """Writes what pg_dump prints of a database into a file."""
        subprocess.run(self.words_of("pg_dump", database), stdout=file, check=True, cwd=self.folder)

    def psql(self, database: str, *words: str, script: bytes = b"") -> list[str]:
        """What psql prints, without names and with `null` for NULL."""
        front = [*self.user, "psql", "-h", self.folder, "-d", database]
        how = ["-qAtX", "-v", "ON_ERROR_STOP=1", "-P", "null=null"]
        done = subprocess.run([*front, *how, *words], input=script, stdout=subprocess.PIPE, check=True, cwd=self.folder)
        return done.stdout.decode().splitlines()

    def psql_text(self, database: str, query: str) -> str:
        """What psql prints of a query, as it is."""
        words = [*self.user, "psql", "-h", self.folder, "-d", database, "-qAtX", "-v", "ON_ERROR_STOP=1", "-c", query]
        return subprocess.run(words, stdout=subprocess.PIPE, check=True, cwd=self.folder).stdout.decode()

    def end(self) -> None:
        """Ends it."""
        self.call("pg_ctl", "-D", f"{self.folder}/data", "-m", "immediate", "stop")
