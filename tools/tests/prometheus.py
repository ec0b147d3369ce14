"""Reads the text format of Prometheus, version 0.0.4, strictly."""
from __future__ import annotations

import re

HEAD = re.compile(r"# (HELP|TYPE) ([a-zA-Z_:][a-zA-Z0-9_:]*) (.+)")
SAMPLE = re.compile(r"([a-zA-Z_:][a-zA-Z0-9_:]*)(?:\{(.*)\})? (\S+)")
LABEL = re.compile(r'([a-zA-Z_][a-zA-Z0-9_]*)="((?:[^"\\\n]|\\["\\n])*)"(?:,|$)')
KINDS = ("counter", "gauge", "histogram", "summary", "untyped")
ESCAPED = {'\\"': '"', "\\\\": "\\", "\\n": "\n"}

Labels = tuple[tuple[str, str], ...]
Samples = dict[tuple[str, Labels], float]


class Wrong(Exception):
    """The text isn't in the format."""


def labels_of(text: str) -> Labels:
    """The labels of a sample, by their names."""
    found, place = [], 0
    while place < len(text):
        label = LABEL.match(text, place)
        if not label:
            raise Wrong(f"labels: {text}")
        found.append((label[1], re.sub(r"\\.", lambda escaped: ESCAPED[str(escaped[0])], label[2])))
        place = label.end()
    if len({name for name, _ in found}) < len(found):
        raise Wrong(f"a label twice: {text}")
    return tuple(sorted(found))


def read(text: str) -> Samples:
    """The samples by name and labels. Each metric has one HELP, one TYPE and then all its samples; counters end with
    `_total` and aren't negative."""
    if not text.endswith("\n"):
        raise Wrong("the last line has no end")
    samples: Samples = {}
    kinds: dict[str, str] = {}
    helped: set[str] = set()
    present = ""
    for line in text[:-1].split("\n"):
        if head := HEAD.fullmatch(line):
            take_head(head[1], head[2], head[3], kinds, helped)
            present = head[2]
        elif found := SAMPLE.fullmatch(line):
            take_sample(found, kinds, present, samples)
        else:
            raise Wrong(f"neither a head nor a sample: {line}")
    empty = set(kinds) - {name for name, _ in samples}
    if empty or helped != set(kinds):
        raise Wrong(f"without samples, HELP or TYPE: {empty or helped ^ set(kinds)}")
    return samples


def take_head(word: str, name: str, text: str, kinds: dict[str, str], helped: set[str]) -> None:
    """Takes a line HELP or TYPE."""
    if word == "HELP":
        if name in helped or name in kinds:
            raise Wrong(f"HELP of {name} twice, or after its TYPE")
        helped.add(name)
    elif name in kinds or text not in KINDS:
        raise Wrong(f"TYPE of {name} twice, or not known: {text}")
    else:
        kinds[name] = text


def take_sample(found: re.Match[str], kinds: dict[str, str], present: str, samples: Samples) -> None:
    """Takes a sample of the present metric."""
    name, labels, value = found[1], labels_of(found[2] or ""), float(found[3])
    if name != present or name not in kinds:
        raise Wrong(f"a sample of {name} apart from its TYPE")
    if (kinds[name] == "counter") != name.endswith("_total") or kinds[name] == "counter" and value < 0:
        raise Wrong(f"a counter: {name} {value}")
    if (name, labels) in samples:
        raise Wrong(f"twice: {name} {labels}")
    samples[name, labels] = value
