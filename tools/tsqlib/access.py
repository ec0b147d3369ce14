"""Who may ask `tsq serve`, and who may write."""
from __future__ import annotations

import os
import secrets
from pathlib import Path
from typing import NamedTuple

from .messages import Trouble

LEAST_TOKEN = 6


class Access(NamedTuple):
    """The token, if there is one; whether nothing may be written; and whether reading needs the token, too."""

    token: str | None
    is_read_only: bool = False
    is_private: bool = False


def token_in(path: Path) -> str:
    """The token of a file, which is made with a new one, for its user to read, if it doesn't exist."""
    try:
        file = os.open(path, os.O_WRONLY | os.O_CREAT | os.O_EXCL, 0o600)
    except FileExistsError:
        return existing(path)
    with open(file, "w", encoding="ascii") as written:
        token = secrets.token_urlsafe(24)
        written.write(token + "\n")
    return token


def existing(path: Path) -> str:
    """The token of a file that others can't read."""
    if path.stat().st_mode & 0o077:
        raise Trouble(f"{path} can be read by others: chmod 600 {path}")
    token = path.read_text(encoding="utf-8").strip()
    if len(token) < LEAST_TOKEN or not token.isascii() or not token.isprintable() or " " in token:
        raise Trouble(f"{path} has no token: wanted is a word of {LEAST_TOKEN} letters and digits or more")
    return token


def access_of(is_read_only: bool, is_private: bool, token_file: str | None) -> Access:
    """The access that the options ask for. The token is that of the file, else that of TSQ_TOKEN, else a new one."""
    if is_read_only and not is_private:
        return Access(None, True, False)
    try:
        token = token_in(Path(token_file)) if token_file else os.environ.get("TSQ_TOKEN") or secrets.token_urlsafe(24)
    except OSError as error:
        raise Trouble(f"{token_file}: {error.strerror}") from None
    return Access(token, is_read_only, is_private)
