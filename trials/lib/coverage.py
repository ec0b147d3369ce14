"""What lives met, and what they may meet: statements, refusals, endings, faults, crashes and audits."""
from collections import Counter
from collections.abc import Iterator
from errno import errorcode

from author import FAULTS, WEIGHTS
from runner import CALLS_OF_STATEMENTS

REPLIES = (
    "TABLE", "HYPERTABLE", "VIEW", "MODE", "COMMIT", "COMMIT EMPTY", "QUEUED", "ANSWER", "ANSWER queue", "REFRESH",
    "NOTHING", "CUT", "SNAP", "FINISH", "BEGIN", "END", "ROLLBACK", "POLICY", "TICK", "CHECKPOINT of checkpoint",
    "NOTHING of checkpoint",
)
# An image of more than 1 GiB (E25) takes longer than a life may.
TOO_LONG_FOR_A_LIFE = 25
ENDINGS = {
    "run": (0, 1, 3, 4, 5, 7, -9), "par": (0, 1, 3, 4, 5, 7, -9), "par json": (0, 1, 3, 4, 5, 7, -9),
    "checkpoint": (0, 4, 5, 7, -9), "log": (0, 4, 5, 7, -9), "check": (0, 4, 5, 7, -9),
    "audit": (0, 1, 3, 4, 5, 7, -9),
}
# Where a call of the disk stops a run: at the header of the journal, or at the statement with such a reply.
MOMENTS = ("the header", "TABLE", "HYPERTABLE", "VIEW", "MODE", "COMMIT", "REFRESH", "CUT", "FINISH", "TICK")
AUDITS = (
    "as it was: AUDIT YES", "as it was: AUDIT POLICY", "in another order: AUDIT YES", "with a digit changed: AUDIT NO",
    "with another row: AUDIT NO", "with two answers turned around: AUDIT NO", "without an event: AUDIT LOST",
    "without an event: AUDIT NO", "with a session twice: AUDIT LOST", "that begins later: AUDIT EARLY",
    "cut off: AUDIT BAD", "with a name twice: AUDIT BAD",
)
# How each is shown, and how it is counted.
OTHERS = {
    "power cut at the last reply": "crash at the last reply",
    "power cut with an event more": "crash with the last event",
    "power cut that leaves the events": "crash that leaves the history",
    "power cut that leaves the image": "crash that leaves the image",
    "changed file that is a history": "changed journal with status 0",
    "changed file that is damaged": "changed journal with status 6",
    "readers beside a run": "run with readers beside it",
    "follower asked": "step follow",
    "history at its end": "step jump",
}


def wanted() -> Iterator[tuple[str, str, str]]:
    """Everything that a soak has to meet: its heading, how it is shown there, and how it is counted."""
    yield from (("Replies", reply, f"reply {reply}") for reply in REPLIES)
    codes = [code for code in range(1, 31) if code != TOO_LONG_FOR_A_LIFE]
    yield from (("Refusals", f"E{code:02}", f"refusal E{code:02}") for code in codes)
    for word, statuses in ENDINGS.items():
        for status in statuses:
            yield f"Statuses of `{word}`", shown_status(status), f"status {status} of {word}"
    for call, actions, _ in FAULTS:
        for action, number in actions:
            tail = f" {number}" if action == "error" else ""
            yield f"Faults: {call}", errorcode[number] if tail else action, f"fault {call} {action}{tail}"
    for word, weights in WEIGHTS.items():
        shown = "par json" if word == "json" else word
        calls = (call for (call, _, _), weight in zip(FAULTS, weights) if weight)
        yield from ((f"Faults of `{shown}`", call, f"fault {call} of {shown}") for call in calls)
    for call in CALLS_OF_STATEMENTS:
        yield from ((f"Where {call} stops a run", moment, f"fault {call} at {moment}") for moment in MOMENTS)
    yield from (("Audits of transcripts", audit, f"audit {audit}") for audit in AUDITS)
    yield from (("Others", shown, name) for shown, name in OTHERS.items())


def shown_status(status: int) -> str:
    return f"status {status}" if status >= 0 else "killed"


def table(seen: Counter[str]) -> str:
    """The coverage as a table of a page, and what was never met."""
    headings: dict[str, list[str]] = {}
    for heading, shown, name in wanted():
        headings.setdefault(heading, []).append(f"{shown} {seen[name]:,}")
    lines = [f"| {heading} | {', '.join(found)} |" for heading, found in headings.items()]
    missing = [f"{heading}: {shown}" for heading, shown, name in wanted() if not seen[name]]
    end = "Never met: " + (", ".join(missing) or "nothing")
    return "\n".join(["| Kind | Met, how often |", "|---|---|", *lines, "", end])
