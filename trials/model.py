#!/usr/bin/env python3
"""A second implementation of what tsctl replies, slow and plain, from docs/SQL.md and docs/MODEL.md alone.

    trials/model.py run < script       replies to a script over an empty history
    trials/model.py log < script       what `tsctl log` prints after it
    trials/model.py check < script     what `tsctl check` prints after it
    trials/model.py same SCRIPT.sql..  compares the replies to scripts with those kept beside them in SCRIPT.out,
                                       and those to the steps of a folder, as in tests/steps/

Its parts stand in trials/lib: lines.py and grammar.py read a statement, resolve.py looks at its names and values,
history.py holds the events and folds rows to answers, and sessions.py says what is replied.
"""
import sys
from pathlib import Path

sys.path.insert(0, str(Path(__file__).resolve().parent / "lib"))
from lines import Line, read_lines  # noqa: E402
from sessions import Session, Store  # noqa: E402


class Run:
    """A run of a script over a history, line by line."""

    def __init__(self, store: Store) -> None:
        self.store = store
        self.sessions: dict[str, Session] = {}

    def reply(self, line: Line) -> list[str]:
        """The lines of the reply to a line."""
        if line.refused:
            return [line.refused_reply()]
        session = self.sessions.setdefault(line.session, Session(self.store))
        course = session.course(line)
        try:
            next(course)
            while True:
                course.send(self.store.history.position)
        except StopIteration:
            return with_name(line.session, session.replies)


def is_of_an_answer(text: str) -> bool:
    """Whether a line of a reply is a row or a stale range, which have no session in front."""
    return text.startswith("stale ") or text[0].isdigit() or text[0] == "-" or text.startswith("null")


def with_name(session: str, replies: list[str]) -> list[str]:
    return [text if is_of_an_answer(text) else f"{session}: {text}" for text in replies]


def run_script(script: bytes, store: Store) -> list[tuple[Line, list[str]]]:
    """Each line of a script with its reply."""
    run = Run(store)
    return [(line, run.reply(line)) for line in read_lines(script)]


def replies_to(script: bytes, store: Store) -> str:
    return "".join(text + "\n" for _, reply in run_script(script, store) for text in reply)


def differs(script: Path) -> bool:
    """Whether the replies to a script differ from those that are kept beside it."""
    return replies_to(script.read_bytes(), Store()) != script.with_suffix(".out").read_text()


def steps_differ(folder: Path) -> bool:
    """The same of the steps of a folder, up to the first one that the second implementation doesn't know."""
    store = Store()
    for output in sorted(folder.glob("*.out")):
        word, script = output.stem.split("-", 1)[1], output.with_suffix(".sql")
        if word == "run":
            given = replies_to(script.read_bytes(), store)
        elif word in ("log", "check"):
            given = store.history.log() if word == "log" else store.history.check()
        else:
            return False
        if given != output.read_text():
            return True
    return False


def compare(names: list[str]) -> int:
    """Names the scripts and folders of steps whose replies differ from those that are kept."""
    paths = [Path(name) for name in names]
    differ = [path for path in paths if (steps_differ(path) if path.is_dir() else differs(path))]
    print("".join(f"{path} differs\n" for path in differ) + f"{len(paths)} scripts, {len(differ)} differ")
    return int(bool(differ))


def main(words: list[str]) -> int:
    if words[:1] == ["same"]:
        return compare(words[1:])
    if len(words) != 1 or words[0] not in ("run", "log", "check"):
        print(__doc__, file=sys.stderr)
        return 2
    store = Store()
    replies = run_script(sys.stdin.buffer.read(), store)
    if words[0] == "run":
        print("".join(text + "\n" for _, reply in replies for text in reply), end="")
        return int(any("FAULT" in text for _, reply in replies for text in reply))
    print(store.history.log() if words[0] == "log" else store.history.check(), end="")
    return 0


if __name__ == "__main__":
    sys.exit(main(sys.argv[1:]))
