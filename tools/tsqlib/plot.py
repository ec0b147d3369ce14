"""`tsq plot`: the columns of an aggregate, of a roll of it or of a query over time, as PNG and SVG."""
from __future__ import annotations

import argparse
import os
import pickle
import shutil
import subprocess
import sys
from collections.abc import Iterator
from dataclasses import replace
from importlib.util import find_spec
from pathlib import Path

from . import drawing
from .aggregates import checked_name, checked_text
from .asking import Shown, ask, ask_query, translator
from .replies import Range
from .gaps import edges_of
from .messages import Trouble, say
from .moments import Clock, zone_of
from .names import Names
from .options import Commands, folder_option, scale_option, snapshot_option, times_option
from .periods import KINDS, Periods
from .picture import MOST_NAMED, Panel, Picture, Word, bounds_of, marks_of, panels_of
from .series import Series, chosen, columns_of, of_aggregate, of_query, of_roll, powers_of, rows_of, with_keys

TOOLS = Path(__file__).resolve().parents[1]


def key(text: str) -> tuple[str, str]:
    """A key and a value, such as `sensor=8`."""
    name, has_value, value = text.partition("=")
    if not name or not has_value:
        raise argparse.ArgumentTypeError(f"{text}: wanted is NAME=VALUE")
    return name, value


def add_command(commands: Commands) -> None:
    """`tsq plot`."""
    parser = commands.add_parser("plot", help="draw an aggregate, with its stale ranges shaded")
    snapshot_option(parser)
    asked = parser.add_mutually_exclusive_group(required=True)
    asked.add_argument("view", nargs="?", metavar="AGGREGATE")
    asked.add_argument("--query", metavar="SELECT", help="a query by buckets, such as a roll-up, instead")
    parser.add_argument("--by", choices=KINDS, help="add its groups up by the calendar, as `tsq roll` does")
    parser.add_argument("--zone", default="UTC", help="the time zone of dates, such as Europe/Berlin; UTC without it")
    parser.add_argument("--columns", metavar="NAME,..", help="what is drawn; without it every function's column")
    parser.add_argument("--from", dest="low", metavar="TIME", help="buckets that start at a time or later")
    parser.add_argument("--to", dest="high", metavar="TIME", help="buckets that start before a time")
    parser.add_argument(
        "--where", default="", metavar="TESTS", help="tests on the bucket, such as `hour >= '2024-01-31'`"
    )
    keys = "only rows whose key has this value, such as sensor=8; may be given several times"
    parser.add_argument("--key", type=key, action="append", default=[], metavar="NAME=VALUE", help=keys)
    parser.add_argument("--out", metavar="NAME", help="writes NAME.png and NAME.svg; without it the aggregate's name")
    scale_option(parser, "divide a column by 10 so many times, such as mean=2; may be given several times")
    times_option(parser, "times are seconds, milliseconds or microseconds since 1970, and are drawn as dates")
    folder_option(parser)
    parser.set_defaults(call=plot)


# ---- what is drawn


def bounds_in(arguments: argparse.Namespace, clock: Clock) -> tuple[int | None, int | None]:
    """The times of `--from` and `--to`."""
    low, high = (clock.read(text) if text else None for text in (arguments.low, arguments.high))
    return low, high


def asked(arguments: argparse.Namespace, names: Names, clock: Clock) -> Shown:
    """What the aggregate shows, or what the query answers."""
    folder = arguments.folder or "."
    translate = translator(folder, names, arguments.times or names.times)
    if arguments.query:
        for name in ("by", "low", "high", "where"):
            if getattr(arguments, name):
                raise Trouble("--query stands for itself: --by, --from, --to and --where are for an aggregate")
        return ask_query(folder, arguments.query, translate)
    return ask(folder, arguments.view, *bounds_in(arguments, clock), arguments.where, translate)


def series_of(arguments: argparse.Namespace, shown: Shown, clock: Clock) -> Series:
    """The rows that may be drawn."""
    if shown.aggregate is None:
        return of_query(shown)
    if not arguments.by:
        return of_aggregate(shown, shown.aggregate)
    if clock.unit is None:
        raise Trouble("--by adds up by the calendar, and --times tells what times are")
    edges = edges_of(shown, shown.aggregate, *bounds_in(arguments, clock))
    return of_roll(shown, shown.aggregate, Periods(arguments.by, clock), edges)


def words_of(shown: Shown, panels: list[Panel], watermark: int | None, notes: list[str], clock: Clock) -> list[Word]:
    """What is said below the picture."""
    words = []
    if shown.late:
        words.append(Word(f"stale: {clock.spans(shown.late, MOST_NAMED)}", "stale"))
    if shown.dropped:
        ranges = clock.spans(shown.dropped, MOST_NAMED)
        words.append(Word(f"rows dropped, shown as of the last refresh: {ranges}", "dropped"))
    if watermark is not None:
        words.append(Word(f"watermark: {clock.text(watermark)}"))
    undrawn = sum(panel.undrawn for panel in panels)
    notes = notes + [f"{undrawn} lines more aren't drawn: --key chooses"] * bool(undrawn)
    return words + [Word(note, is_note=True) for note in notes]


def within(shown: Shown, start: int, end: int) -> Shown:
    """The same with those ranges that a picture from one time to another shows."""

    def kept(ranges: list[Range]) -> list[Range]:
        return [(low, high) for low, high in ranges if high > start and (low is None or low < end)]

    return replace(shown, late=kept(shown.late), dropped=kept(shown.dropped))


def picture_of(arguments: argparse.Namespace, shown: Shown, names: Names, clock: Clock) -> Picture:
    """What is drawn."""
    series = series_of(arguments, shown, clock)
    if not series.buckets:
        why = ": it has none before its first refresh" if shown.watermark is None else ""
        raise Trouble(f"{shown.title} shows no rows{why}")
    buckets = with_keys(series, arguments.key, names)
    places = chosen(series, arguments.columns)
    columns = [series.columns[place] for place in places]
    rows = rows_of(series, buckets, places, powers_of(columns, dict(arguments.scale), names), names)
    panels = panels_of(columns_of(series, places), series.keys, rows)
    if shown.aggregate:
        start, end = bounds_of(rows, shown.late + shown.dropped)
    else:
        start, end = bounds_of(rows, [])
        shown = within(shown, start, end)
    marks = marks_of("stale", shown.late, start, end) + marks_of("dropped", shown.dropped, start, end)
    watermark = shown.watermark if shown.watermark is not None and start <= shown.watermark <= end else None
    axis = f"{series.axis}, {clock.zone.key}" if clock.unit else series.axis
    return Picture(f"{series.title} @{shown.position}", axis, panels, start, end, marks, watermark, clock.unit,
                   clock.zone.key, words_of(shown, panels, watermark, series.notes, clock))  # fmt: skip


# ---- files


def write_all(files: dict[Path, bytes]) -> None:
    """Writes files, each whole: on a failure none is there that wasn't before."""
    begun: list[Path] = []
    try:
        for path, content in files.items():
            begun.append(path.with_name(f".{path.name}.{os.getpid()}"))
            begun[-1].write_bytes(content)
        for new, path in zip(begun, files):
            os.replace(new, path)
    except OSError as error:
        raise Trouble(f"{next(iter(files)).parent}: {error.strerror}") from None
    finally:
        for new in begun:
            new.unlink(missing_ok=True)


# ---- which Python draws


def other_pythons() -> Iterator[str]:
    """The other Pythons on the PATH, and that of the system, which has the system's packages."""
    seen = {os.path.realpath(sys.executable)}
    for folder in [*os.environ.get("PATH", "").split(os.pathsep), "/usr/bin"]:
        found = shutil.which("python3", path=folder)
        if found and os.path.realpath(found) not in seen:
            seen.add(os.path.realpath(found))
            yield found


def rendered_by(python: str, picture: Picture) -> dict[str, bytes] | None:
    """The picture's files, by another Python; nothing if it has no matplotlib."""
    words = [python, "-m", drawing.__name__]
    done = subprocess.run(words, input=pickle.dumps(picture), capture_output=True, cwd=TOOLS)
    if done.returncode == 0:
        files: dict[str, bytes] = pickle.loads(done.stdout)
        return files
    if done.returncode == drawing.NOTHING_DRAWS or b"SyntaxError" in done.stderr:
        return None
    raise Trouble(done.stderr.decode("utf-8", "replace").strip() or f"{python} ended with {done.returncode}")


def rendered(picture: Picture) -> dict[str, bytes] | None:
    """The picture's files; nothing if no Python here has matplotlib 3.6 or later."""
    if find_spec("matplotlib") and find_spec("matplotlib.layout_engine"):
        return drawing.render(picture)
    found = (rendered_by(python, picture) for python in other_pythons())
    return next((files for files in found if files), None)


def plot(arguments: argparse.Namespace) -> int:
    """Draws the picture into a PNG and an SVG."""
    names = Names.read(Path(arguments.folder or "."))
    clock = Clock(arguments.times or names.times, zone_of(arguments.zone))
    name = checked_name(arguments.view) if arguments.view else "query"
    out = checked_text(arguments.out or name, "--out")
    picture = picture_of(arguments, asked(arguments, names, clock), names, clock)
    contents = rendered(picture)
    if contents is None:
        say("pictures are drawn by matplotlib 3.6 or later, and no python3 here has it: `apt-get update &&"
            " apt-get install python3-matplotlib`")  # fmt: skip
        return drawing.NOTHING_DRAWS
    files = {Path(f"{out}.{end}"): content for end, content in contents.items()}
    write_all(files)
    print(*files, sep="\n")
    return 0
