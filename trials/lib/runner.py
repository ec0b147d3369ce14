"""Runs the steps of a life, and compares each call of the program with what the second implementation says."""
import json
import random
import re
import subprocess
import sys
from collections import Counter
from collections.abc import Callable, Iterable, Iterator, Sequence
from contextlib import contextmanager
from dataclasses import dataclass, field
from itertools import accumulate
from pathlib import Path
from threading import Timer

from crash import Image, crash, read_trace
from damage import check_damage, read
from follow import Following
from forge import forgeries
from history import LAST_POSITION, Event, History
from journal_bytes import (
    MAGIC, VERSION_WITH_BASE, Contents, Damaged, event_bytes, image_bytes, read_event, read_file, u32,
)
from life import Step
from lines import Line, read_lines
from program import TOP, Ran, call
from replay import Mismatch, replay
from sessions import Misplaced, Store
from tags import tags_of_events, tags_of_lines

sys.path.insert(0, str(TOP / "trials"))
from model import Run  # noqa: E402

SAID = {
    3: b"tsctl: read fault\n", 4: b"tsctl: write fault\n", 5: b"tsctl: disk fault\n", 7: b"tsctl: no memory\n",
}
# A kill, and a stack that can't grow below a limit for the whole process, which no program can answer.
KILLED, STACK_REFUSED = -9, -11
ENDED = (KILLED, STACK_REFUSED)
# The statuses that a fault may lead to. An interrupted call, and one that did a part, is made again.
STATUSES = {
    "open": 5, "lock": 5, "length": 5, "pread": 5, "pwrite": 5, "sync": 5, "room": 5, "read": 3, "write": 4,
    "memory": 7, "limit": 7,
}
INTERRUPTED = "4"
LEAST_JOURNAL = 10
# How many power cuts are tried of one run.
CRASHES = 20
HAPPENED_AT = 12
# For how many seconds a call may go on.
LONGEST = 120
# The calls of a disk that statements make.
CALLS_OF_STATEMENTS = ("pwrite", "sync", "room")


@dataclass
class Failure(Exception):
    """What came out otherwise than it must: what was looked at, and what was expected and given."""

    what: str
    expected: object
    given: object

    def __str__(self) -> str:
        return f"{self.what}\n  expected {self.expected!r}\n  given    {self.given!r}"


def same(what: str, expected: object, given: object) -> None:
    if expected != given:
        raise Failure(what, expected, given)


def statuses_of(fault: str) -> set[int]:
    """How a call may end whose fault has happened. Done is 0 here, and 1 as well where a reply is a FAULT."""
    name, _, _, action, number = fault.split()
    if action in ("kill", "half", "done"):
        return {KILLED}
    if action == "short" or name == "thread" or (action == "error" and number == INTERRUPTED):
        return {0}
    if name == "limit":
        return {STATUSES[name], 0, STACK_REFUSED}
    return {STATUSES[name], 0} if name == "memory" else {STATUSES[name]}


def text_of(reply: Sequence[str]) -> bytes:
    return "".join(line + "\n" for line in reply).encode()


def words_of(text: str) -> list[str]:
    """The words of a line of a reply, without the name of the session in front."""
    return re.sub(r"^[a-z0-9_ ]*: ", "", text).split()


@contextmanager
def killed_later(run: subprocess.Popen[bytes]) -> Iterator[None]:
    """Kills a run that doesn't come to an end, so that nobody waits for its replies."""
    timer = Timer(LONGEST, run.kill)
    timer.start()
    try:
        yield
    finally:
        timer.cancel()


@dataclass
class Trial:
    """A folder with a journal, and the history that it has to stand for."""

    command: Path
    library: Path | None
    folder: Path
    seen: Counter[str]
    store: Store = field(default_factory=Store)
    base: int | None = None
    base_bytes: bytes | None = None
    last_transcript: bytes = b""
    told_from: int = 0
    following: Following | None = None

    # ---- the journal

    @property
    def journal(self) -> Path:
        return self.folder / "tsctl.journal"

    def file(self) -> bytes:
        return self.journal.read_bytes() if self.journal.exists() else b""

    def contents(self, file: bytes | None = None) -> Contents:
        """The payloads of the journal, or of another file."""
        try:
            return read_file(self.file() if file is None else file)
        except Damaged as damaged:
            raise Failure("the journal", "one that can be read", f"damaged at {damaged.args[0]}") from None

    def events(self) -> list[tuple[int, Event]]:
        """The events behind the base."""
        return [(at, event) for at, event in self.store.history.events if at > (self.base or 0)]

    def settle(self, least: int, most: int) -> None:
        """Compares the journal with the history, of which it may have the first events only. These are kept."""
        self.cut_to(self.position_of(self.contents(), least, most))

    def position_of(self, contents: Contents, least: int, most: int) -> int:
        """The position of a journal that has the first events of the history, and at least so many of them."""
        wanted = [event_bytes(event) for _, event in self.events()]
        same("the base of the journal", self.base_bytes, contents.base)
        count = len(contents.payloads)
        same("the events of the journal", [it.hex() for it in wanted[:count]], [it.hex() for it in contents.payloads])
        position = (self.base or 0) + count
        if not least <= position <= most:
            raise Failure("the position of the journal", f"from {least} to {most}", position)
        return position

    def cut_to(self, position: int) -> None:
        """Forgets the events behind a position."""
        if position == self.store.history.position:
            return
        history = History()
        for at, event in self.store.history.events:
            if at <= position:
                history.position = at - 1
                history.add(event)
        history.position = position
        self.store = Store(history)

    # ---- calls

    def call(self, words: Sequence[str], step: Step, given: bytes = b"") -> tuple[Ran, bool]:
        """Calls the program, and says whether the fault of the step has happened."""
        counts = self.folder / "counts"
        if self.library is None:
            return call(self.command, words, self.folder, given), False
        more = {"LD_PRELOAD": str(self.library), "TRIAL_COUNTS": str(counts), "TRIAL_FAULT": step.fault}
        if step.how.startswith("crash"):
            more["TRIAL_TRACE"] = str(self.folder / "trace")
        try:
            ran = call(self.command, words, self.folder, given, LONGEST, more)
        except subprocess.TimeoutExpired:
            raise Failure(" ".join(words), "an end within two minutes", "none") from None
        noted = counts.read_bytes()[8 * HAPPENED_AT :][:8]
        return ran, any(noted)

    def check_status(self, what: str, step: Step, ran: Ran, happened: bool, done: int) -> None:
        """Compares how a call ended with how it may end."""
        wanted = statuses_of(step.fault) if happened else {0}
        wanted = {done if status == 0 else status for status in wanted}
        if ran.status not in wanted:
            raise Failure(f"the status of {what}", sorted(wanted), (ran.status, ran.err[-300:]))
        same(f"what {what} says", SAID.get(ran.status, b""), ran.err)
        self.seen[f"status {ran.status} of {what}"] += 1
        if step.fault:
            name, _, _, action, number = step.fault.split()
            shown = f"fault {name} {action} {number if action == 'error' else ''}".rstrip()
            self.seen[shown + ("" if happened else " not met")] += 1
            self.seen[f"fault {name} of {what}"] += happened

    # ---- run

    def expect(self, script: bytes) -> tuple[list[tuple[Line, list[str]]], list[int]]:
        """The replies to a script, and the position behind each line, with that before the first one in front."""
        run, replies, after = Run(self.store), [], [self.store.history.position]
        for line in read_lines(script):
            replies.append((line, run.reply(line)))
            after.append(self.store.history.position)
        return replies, after

    def count_replies(self, replies: Sequence[tuple[Line, list[str]]], out: bytes) -> tuple[int, bytes]:
        """How many replies stand whole in what was written, and what follows: a part of the next one."""
        at = 0
        for count, (line, reply) in enumerate(replies):
            wanted = text_of(reply)
            given = out[at : at + len(wanted)]
            if given != wanted and (len(out) - at >= len(wanted) or not wanted.startswith(given)):
                rest = out[at:].decode("latin-1").splitlines()[: len(reply) + 1]
                raise Failure(f"the reply to {line.text or 'line ' + str(line.number)}", reply, rest)
            if given != wanted:
                return count, given
            at += len(wanted)
        same("what stands behind the last reply", b"", out[at:])
        return len(replies), b""

    def run(self, step: Step) -> None:
        script = b"".join(line + b"\n" for line in step.lines)
        before = self.file()
        replies, after = self.expect(script)
        self.note_replies(reply for _, reply in replies)
        ran, happened = self.call(["run"], step, script)
        whole, rest = self.count_replies(replies, ran.out)
        has_fault = any(b"FAULT" in text_of(reply) for _, reply in replies)
        self.check_status("run", step, ran, happened, int(has_fault))
        if ran.status in (0, 1):
            same("the number of replies", len(replies), whole)
        if rest and ran.status not in (4, *ENDED):
            raise Failure("a reply that is cut short", b"", rest)
        if happened and ran.status not in (0, 1):
            self.note_moment(step, not before, [reply for _, reply in replies[whole:]])
        if step.how.startswith("crash"):
            self.crash(step, before, replies, after)
        else:
            self.settle(after[whole + 1] if rest else after[whole], after[min(whole + 1, len(replies))])

    def crash(self, step: Step, before: bytes, replies: Sequence[tuple[Line, list[str]]], after: list[int]) -> None:
        """Reads what power cuts during the run might have left, and goes on with one of these journals: with the last
        one, or, by each second number, with one that has the fewest events, which may have no header yet."""
        sizes = [len(text_of(reply)) for _, reply in replies]
        found: list[tuple[int, bytes]] = []
        for image in self.images(step, before):
            whole = sum(size <= image.replied for size in accumulate(sizes))
            position = self.position_of(self.contents(image.file), after[whole], after[min(whole + 1, len(replies))])
            self.seen["crash with the last event" if position > after[whole] else "crash at the last reply"] += 1
            found.append((position, image.file))
        position, file = min(found, key=lambda it: it[0]) if step.seed % 2 else found[-1]
        self.journal.write_bytes(file)
        self.cut_to(position)

    def images(self, step: Step, before: bytes) -> Iterator[Image]:
        """Journals that power cuts during the last call might have left."""
        trace, rng = self.folder / "trace", random.Random(step.seed)
        calls = read_trace(trace.read_bytes() if trace.exists() else b"")
        trace.unlink(missing_ok=True)
        for _ in range(CRASHES):
            yield crash(rng, before, calls)

    def note_moment(self, step: Step, is_new: bool, missing: Sequence[Sequence[str]]) -> None:
        """Notes at which statement a call of the disk stopped a run: that of the first reply that is missing."""
        name, first, *_ = step.fault.split()
        if name in CALLS_OF_STATEMENTS:
            is_header = is_new and first == "1"
            word = "the header" if is_header else words_of(missing[0][0])[0] if missing else "the end"
            self.seen[f"fault {name} at {word}"] += 1

    def note_replies(self, replies: Iterable[Sequence[str]]) -> None:
        for reply in replies:
            for text in reply:
                words = words_of(text)
                if "FAULT" in words:
                    self.seen[f"refusal {words[1]}"] += 1
                elif words[0].isupper():
                    kind = " EMPTY" if "EMPTY" in words else " queue" if "queue" in words else ""
                    self.seen[f"reply {words[0]}{kind}"] += 1

    # ---- par

    def par(self, step: Step) -> None:
        script = b"".join(line + b"\n" for line in step.lines)
        words = ["par"] if step.word == "par" else ["par", "json"]
        lines = list(read_lines(script))
        start = self.store.history.position
        ran, happened = self.call(words, step, script)
        done = ran.status if ran.status in (0, 1) else 0
        self.check_status(" ".join(words), step, ran, happened, done)
        contents = self.contents()
        if ran.status in (0, 1) or (ran.status == 5 and step.word == "par" and ran.out):
            told = self.told(step, lines, ran.out)
            self.check_told(told, ran, contents)
            faults = any("FAULT" in text for _, _, texts in told for text in texts)
            faults |= any(line.refused for line in lines)
            if ran.status != 5:
                same("the status of par", int(faults), ran.status)
        else:
            if ran.status not in (4, *ENDED):
                same(f"what {' '.join(words)} writes", b"", ran.out)
            self.check_tags(step, contents, ran.status)
        self.adopt(contents)
        self.settle(start, self.store.history.position)
        if step.word == "json" and ran.status in (0, 1):
            self.last_transcript, self.told_from = ran.out, start
            self.audit(step, json.loads(ran.out))

    def told(self, step: Step, lines: Sequence[Line], out: bytes) -> list[tuple[str, list[Line], list[str]]]:
        """The sessions of a run with their lines and those of their replies, in the order in which they are told."""
        names: dict[str, list[Line]] = {"setup": []}
        for line in lines:
            if not line.refused:
                names.setdefault(line.session, []).append(line)
        order = sorted(names, key=lambda name: name == "final")
        order = [name for name in order if names[name]]
        if step.word == "json":
            return [(name, names[name], texts) for name, texts in zip(order, self.transcript(order, names, out))]
        refused = [line.refused_reply() for line in lines if line.refused]
        texts = out.decode("latin-1").splitlines()
        same("the refusals of lines", refused, texts[: len(refused)])
        return [(name, names[name], own) for name, own in zip(order, self.split(order, texts[len(refused) :]))]

    def split(self, order: Sequence[str], texts: Sequence[str]) -> list[list[str]]:
        """Which lines of replies are whose, without the names."""
        found: list[list[str]] = [[] for _ in order]
        at = -1
        for text in texts:
            named = re.match(r"([a-z][a-z0-9_]*): ", text)
            if named:
                at = order.index(named[1]) if named[1] in order else -1
                text = text[named.end() :]
            found[at].append(text)
        return found

    def transcript(self, order: Sequence[str], names: dict[str, list[Line]], out: bytes) -> list[list[str]]:
        """The lines of the replies of each session of a transcript."""
        text = out.decode("ascii")
        read = json.loads(text)
        same("the transcript", json.dumps(read, separators=(",", ":"), sort_keys=True) + "\n", text)
        same("where it begins", self.store.history.position, read["start"])
        same("its sessions", list(order), [talk["name"] for talk in read["sessions"]])
        found = []
        for talk in read["sessions"]:
            lines = [line.text.rstrip("\r") for line in names[talk["name"]]]
            same("its lines", lines, [it["line"].rstrip("\r") for it in talk["replies"]])
            head = talk["name"] + ": "
            replies = [text for it in talk["replies"] for text in it["reply"].removesuffix("\n").split("\n")]
            found.append([text.removeprefix(head) for text in replies])
        return found

    def check_told(self, told: Sequence[tuple[str, list[Line], list[str]]], ran: Ran, contents: Contents) -> None:
        """Replays what sessions were told. A journal that has failed may have one event more."""
        end = (self.base or 0) + len(contents.payloads)
        all_texts = [text for _, _, texts in told for text in texts]
        stopped = [int(text.rsplit("@", 1)[1]) for text in all_texts if text.startswith("FAULT E24")]
        self.note_replies([all_texts])
        if ran.status == 5:
            more, end = end, min([end, *stopped])
            if more > end + 1:
                raise Failure("the position of the journal", f"{end} or {end + 1}", more)
        try:
            replay(self.store, told, end)
        except (Mismatch, Misplaced) as wrong:
            raise Failure("what sessions were told in par", "one history that explains it", str(wrong)) from None
        self.store.has_failed = False

    def check_tags(self, step: Step, contents: Contents, status: int) -> None:
        """Of each session whose rows have numbers the first ones have to be there. If its replies were written, all,
        except where the history is full."""
        known = self.store.history.position - (self.base or 0)
        there = tags_of_events([read_event(payload) for payload in contents.payloads[known:]])
        is_full = (self.base or 0) + len(contents.payloads) == LAST_POSITION
        for session, tags in tags_of_lines(step.lines).items():
            found = [tag for tag in there if tag in tags]
            has_all = status == 4 and "m" in self.names() and not is_full
            wanted = tags if has_all else tags[: len(found)]
            same(f"the rows of {session}", wanted, found)

    def names(self) -> list[str]:
        return [table.name for table in self.store.history.tables if table.place is not None]

    def adopt(self, contents: Contents) -> None:
        """Adds the events of the journal that nobody was told of."""
        known = self.store.history.position - (self.base or 0)
        for payload in contents.payloads[known:]:
            self.store.history.add(read_event(payload))

    def audit(self, step: Step, transcript: object) -> None:
        rng = random.Random(repr(step))
        before = self.file()
        for forged in forgeries(rng, transcript, self.store.history.position):
            ran, _ = self.call(["audit"], Step("audit"), forged.text.encode())
            if not re.fullmatch(forged.wanted, ran.out.decode()):
                raise Failure(f"the audit of a transcript {forged.name}: {forged.text}", forged.wanted, ran.out)
            same("the status of an audit", int(not ran.out.startswith(b"AUDIT YES")), ran.status)
            self.seen[f"audit {forged.name}: {' '.join(ran.out.decode().split()[:2])}"] += 1
        same("the journal behind an audit", before, self.file())

    def audit_again(self, step: Step) -> None:
        """Audits the last transcript again, with a fault."""
        before = self.file()
        plain, _ = self.call(["audit"], Step("audit"), self.last_transcript)
        ran, happened = self.call(["audit"], step, self.last_transcript)
        self.check_status("audit", step, ran, happened, plain.status)
        is_done = ran.status in (0, 1)
        if (is_done and ran.out != plain.out) or not plain.out.startswith(ran.out):
            raise Failure("what audit writes", plain.out, ran.out)
        same("the journal behind an audit", before, self.file())

    # ---- calls without input

    def checkpoint(self, step: Step) -> None:
        before, position, image = self.file(), self.store.history.position, image_bytes(self.store.history)
        is_new = position != (self.base or 0)
        line = f"CHECKPOINT @{position} bytes {len(image)}\n" if is_new else f"NOTHING @{position}\n"
        ran, happened = self.call(["checkpoint"], step)
        self.check_status("checkpoint", step, ran, happened, 0)
        if ran.status == 0:
            same("what checkpoint writes", line.encode(), ran.out)
            self.seen[f"reply {line.split()[0]} of checkpoint"] += 1
        elif not line.encode().startswith(ran.out):
            raise Failure("what checkpoint writes", line, ran.out)
        if step.how.startswith("crash"):
            self.crash_checkpoint(step, before, image if is_new else self.base_bytes)
        is_saved = self.contents().base != self.base_bytes
        if is_saved or ((ran.status == 0 or ran.out) and is_new and not step.how.startswith("crash")):
            self.base, self.base_bytes = position, image
        if is_saved and self.last_transcript and self.told_from < position:
            late, _ = self.call(["audit"], Step("audit"), self.last_transcript)
            same("an audit behind an image", f"AUDIT EARLY @{position}\n".encode(), late.out)
        self.seen["checkpoint that " + ("saved" if is_saved else "saved nothing") + f" with status {ran.status}"] += 1
        self.settle(position, position)

    def crash_checkpoint(self, step: Step, before: bytes, image: bytes | None) -> None:
        """Reads what power cuts during a checkpoint might have left: the journal as it was, or the image."""
        old = read_file(before)
        for cut in self.images(step, before):
            found = self.contents(cut.file)
            is_old = (found.base, found.payloads) == (old.base, old.payloads)
            if (found.base, found.payloads) != (image, []) and (cut.replied or not is_old):
                raise Failure("a power cut during a checkpoint", "the image, or what was there", found)
            self.seen["crash that leaves the history" if is_old else "crash that leaves the image"] += 1
        self.journal.write_bytes(cut.file)

    def show(self, step: Step) -> None:
        """`log` or `check`, which change nothing."""
        before = self.file()
        ran, happened = self.call([step.word], step)
        self.check_status(step.word, step, ran, happened, 0)
        wanted = self.shown(step.word)
        if ran.status == 0:
            same(f"what {step.word} writes", wanted, ran.out)
        elif not wanted.startswith(ran.out):
            raise Failure(f"what {step.word} writes", wanted, ran.out)
        same(f"the journal behind {step.word}", before, self.file())
        same("the companion's log", self.shown("log").decode(), read(before)[1])

    def shown(self, word: str) -> bytes:
        history = self.store.history
        return (history.log(self.base) if word == "log" else history.check()).encode()

    def damage(self, step: Step) -> None:
        check_damage(self.command, step.seed, self.file(), same, self.seen)

    def jump(self, step: Step) -> None:
        """Puts the image of the history at another position, and nothing else into the journal."""
        image = image_bytes(self.store.history)
        self.base_bytes = image[:1] + step.seed.to_bytes(8, "little") + image[9:]
        self.base = self.store.history.position = step.seed
        self.journal.write_bytes(MAGIC + VERSION_WITH_BASE + b"\1" + u32(len(image)) + self.base_bytes + b"\0")

    # ---- readers beside a writer

    def beside(self, step: Step) -> None:
        half = len(step.lines) // 2
        model = Run(self.store)
        lines = list(read_lines(b"".join(line + b"\n" for line in step.lines)))
        cut = sum(line.number <= half for line in lines)
        pipe = subprocess.PIPE
        with subprocess.Popen([self.command, "run"], cwd=self.folder, stdin=pipe, stdout=pipe, stderr=pipe) as run:
            with killed_later(run):
                assert run.stdin and run.stdout
                run.stdin.write(b"".join(line + b"\n" for line in step.lines[:half]))
                run.stdin.flush()
                first = [(line, model.reply(line)) for line in lines[:cut]]
                wanted = b"".join(text_of(reply) for _, reply in first)
                self.count_replies(first, run.stdout.read(len(wanted)))
                if wanted:
                    self.read_beside()
                rest, said = run.communicate(b"".join(line + b"\n" for line in step.lines[half:]))
        second = [(line, model.reply(line)) for line in lines[cut:]]
        whole, _ = self.count_replies(second, rest)
        same("the number of replies", len(second), whole)
        has_fault = any(b"FAULT" in text_of(reply) for _, reply in [*first, *second])
        same("the end of a run with readers beside it", (int(has_fault), b""), (run.returncode, said))
        self.settle(self.store.history.position, self.store.history.position)
        self.seen["run with readers beside it"] += 1

    def read_beside(self) -> None:
        """Reads the journal beside a run, and tries another one."""
        for word in ("log", "check"):
            same(f"{word} beside a run", self.shown(word), call(self.command, [word], self.folder).out)
        same("the companion's log beside a run", self.shown("log").decode(), read(self.file())[1])
        other = call(self.command, ["run"], self.folder)
        same("another run beside it", (5, b"tsctl: disk fault\n"), (other.status, other.err))

    def follow(self, step: Step) -> None:
        """Asks a copy that follows the journal, which has to be as new."""
        if len(self.file()) < LEAST_JOURNAL:
            return
        self.following = self.following or Following(self.command, self.folder)
        same("the position of a follower", self.store.history.position, self.following.step())
        script = b"".join(line + b"\n" for line in step.lines)
        replies, _ = self.expect(script)
        self.count_replies(replies, self.following.ask(script).out)

    def close(self) -> None:
        if self.following:
            self.following.close()

    def step(self, step: Step) -> None:
        kinds: dict[str, Callable[[Step], None]] = {
            "run": self.run, "par": self.par, "json": self.par, "checkpoint": self.checkpoint, "log": self.show,
            "check": self.show, "damage": self.damage, "jump": self.jump, "beside": self.beside, "follow": self.follow,
            "audit": self.audit_again,
        }
        kinds[step.word](step)
        self.seen[f"step {step.word}"] += 1
