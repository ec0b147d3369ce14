"""Transcripts of `par json` as an audit gets them: as they were, in another order, and forged."""
import copy
import json
import random
import re
from collections.abc import Iterator
from typing import Any, NamedTuple

ROW = re.compile(r"(?:-?[0-9]+|null)(?:\|(?:-?[0-9]+(?:/[0-9]+)?|null))*")
EVENT = re.compile(r"(?:TABLE|HYPERTABLE|VIEW|MODE|COMMIT|FINISH [0-9]+|REFRESH [0-9]+) @[0-9]+|CUT [0-9]+ ")
ANSWERED = re.compile(r"[a-z][a-z0-9_]*: (?:ANSWER|FAULT E[0-9]+ [a-z_]+) @([0-9]+)(?: rows|\n)")
TAGGED_ROW = re.compile(r"(?<=, 1, )[0-9]{7}\)$")
POLICY = re.compile(r"[^:]*:[ \t]*(?:tick\b|select[ \t]+add_(?:continuous_aggregate|retention)_policy\b)", re.I | re.A)
Transcript = dict[str, Any]


class Forged(NamedTuple):
    """A transcript, what was done to it, and a pattern of the line that an audit has to print."""

    name: str
    text: str
    wanted: str


def text_of(transcript: Transcript) -> str:
    return json.dumps(transcript, separators=(",", ":"))


def exchanges(transcript: Transcript) -> Iterator[tuple[int, int, dict[str, str]]]:
    for i, talk in enumerate(transcript["sessions"]):
        for j, exchange in enumerate(talk["replies"]):
            yield i, j, exchange


def policy_line(transcript: Transcript) -> str | None:
    """What an audit says of the first line on policies."""
    for i, j, exchange in exchanges(transcript):
        if POLICY.match(exchange["line"]):
            return f"AUDIT POLICY session {i} reply {j}\n"
    return None


def digits(transcript: Transcript) -> list[tuple[int, int, int]]:
    """Where a digit stands in a cell of an answer or in a stale range: session, reply, place in the text."""
    found = []
    for i, j, exchange in exchanges(transcript):
        at = 0
        for line in exchange["reply"].splitlines(keepends=True):
            if ROW.fullmatch(line.rstrip("\n")) or line.startswith("stale "):
                found += [(i, j, at + place) for place, sign in enumerate(line) if sign.isdigit()]
            at += len(line)
    return found


def renamed(talk: Transcript, name: str) -> Transcript:
    """What a session was told, under another name of the same length, since refusals tell places."""
    own = re.compile(rf"^([ \t]*){talk['name']}:", re.MULTILINE)
    replies = [{key: own.sub(rf"\g<1>{name}:", text) for key, text in it.items()} for it in talk["replies"]]
    return {"name": name, "replies": replies}


def forgeries(rng: random.Random, transcript: Any, end: int) -> Iterator[Forged]:
    """A transcript, and some forgeries of it. The history of its journal ends at `end`."""
    count = sum(1 for _ in exchanges(transcript))
    policy = policy_line(transcript)
    yield Forged("as it was", text_of(transcript), policy or f"AUDIT YES replies {count} @{end}\n")
    if policy:
        return
    other = copy.deepcopy(transcript)
    rng.shuffle(other["sessions"])
    yield Forged("in another order", text_of(other), f"AUDIT YES replies {count} @{end}\n")
    found = digits(transcript)
    for i, j, at in rng.sample(found, min(2, len(found))):
        yield with_digit(rng, transcript, i, j, at)
    yield from with_another_row(rng, transcript)
    yield from turned_around(rng, transcript)
    yield from without_events(rng, transcript)
    yield from misshapen(rng, transcript, end)


def with_digit(rng: random.Random, transcript: Transcript, i: int, j: int, at: int) -> Forged:
    other = copy.deepcopy(transcript)
    text = other["sessions"][i]["replies"][j]["reply"]
    digit = rng.choice([it for it in "0123456789" if it != text[at]])
    other["sessions"][i]["replies"][j]["reply"] = text[:at] + digit + text[at + 1 :]
    return Forged("with a digit changed", text_of(other), f"AUDIT NO session {i} reply {j}\n")


def with_another_row(rng: random.Random, transcript: Transcript) -> Iterator[Forged]:
    """With another number in a row whose statement has the same reply."""
    found = [(i, j, number) for i, j, it in exchanges(transcript) if (number := TAGGED_ROW.search(it["line"]))
             and "COMMIT @" in it["reply"]]
    if not found:
        return
    i, j, number = rng.choice(found)
    other = copy.deepcopy(transcript)
    line = other["sessions"][i]["replies"][j]["line"]
    other["sessions"][i]["replies"][j]["line"] = line[: number.start()] + "7" + line[number.start() :]
    yield Forged("with another row", text_of(other), f"AUDIT NO session {i} reply {j}\n")


def turned_around(rng: random.Random, transcript: Transcript) -> Iterator[Forged]:
    """With two answers, one behind the other, of which the second one has a later position, turned around."""
    found: list[tuple[int, int]] = []
    for i, talk in enumerate(transcript["sessions"]):
        places = [ANSWERED.match(it["reply"]) for it in talk["replies"]]
        pairs = enumerate(zip(places, places[1:]))
        found += [(i, j) for j, (one, next_one) in pairs if one and next_one and int(one[1]) < int(next_one[1])]
    if not found:
        return
    i, j = rng.choice(found)
    other = copy.deepcopy(transcript)
    replies = other["sessions"][i]["replies"]
    replies[j], replies[j + 1] = replies[j + 1], replies[j]
    yield Forged("with two answers turned around", text_of(other), f"AUDIT NO session {i} reply {j + 1}\n")


def without_events(rng: random.Random, transcript: Transcript) -> Iterator[Forged]:
    """Without a reply that tells of an event, and with its session twice."""
    made = [(i, j) for i, j, exchange in exchanges(transcript) if EVENT.search(exchange["reply"])]
    if not made:
        return
    i, j = rng.choice(made)
    other = copy.deepcopy(transcript)
    del other["sessions"][i]["replies"][j]
    yield Forged("without an event", text_of(other), rf"AUDIT NO session {i} reply \d+\n|AUDIT LOST @\d+\n")
    other = copy.deepcopy(transcript)
    other["sessions"].append(renamed(other["sessions"][i], "z" + other["sessions"][i]["name"][1:]))
    yield Forged("with a session twice", text_of(other), r"AUDIT LOST @\d+\n")


def misshapen(rng: random.Random, transcript: Transcript, end: int) -> Iterator[Forged]:
    """One that begins behind the history, and texts that are no transcripts."""
    yield Forged("that begins later", text_of({**transcript, "start": end + 1}), f"AUDIT EARLY @{end}\n")
    text = text_of(transcript)
    cut = text[: rng.randrange(len(text) - 1)]
    yield Forged("cut off", cut, "AUDIT BAD\n")
    if transcript["sessions"]:
        other = copy.deepcopy(transcript)
        other["sessions"].append(copy.deepcopy(other["sessions"][0]))
        yield Forged("with a name twice", text_of(other), "AUDIT BAD\n")
