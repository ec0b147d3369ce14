"""Draws a picture by the library matplotlib, as PNG and as SVG.

As a program it draws for a Python without that library: it takes a picture on standard input, and gives its files.
"""
# mypy: disable-error-code="import"
from __future__ import annotations

import io
import logging
import pickle
import sys
import textwrap
import warnings
from collections.abc import Iterator, Sequence
from contextlib import contextmanager
from datetime import datetime, timezone
from statistics import median
from typing import TYPE_CHECKING, Any
from zoneinfo import ZoneInfo

from .cells import UNITS
from .messages import Trouble
from .moments import OUTSIDE
from .picture import Kind, Line, Panel, Picture, widened

if TYPE_CHECKING:
    from matplotlib.axes import Axes
    from matplotlib.figure import Figure

# The colors of Okabe and Ito, which people with each kind of color blindness tell apart; the pale yellow comes last.
COLORS = ["#0072b2", "#d55e00", "#009e73", "#cc79a7", "#e69f00", "#56b4e9", "#000000", "#f0e442"]
# Dashes and gaps, in points.
DASHES: list[Any] = ["-", (0, (6, 2)), (0, (2, 1.5)), (0, (6, 2, 1.5, 2)), (0, (11, 3)), (0, (4, 1.5, 1, 1.5, 1, 1.5))]
SHADES: dict[Kind, dict[str, Any]] = {
    "stale": {"facecolor": "#f6c9a8", "edgecolor": "none"},
    "dropped": {"facecolor": "#e4e4e4", "edgecolor": "#b5b5b5", "hatch": "////", "linewidth": 0},
}
MARKED = "#d55e00"
WATERMARK = "#555555"
NOTHING_DRAWS = 3
# In inches: how wide a picture is, and how high are a panel, what is around the panels, and a line of words.
WIDTH, PANEL, FRAME, WORD = 10.0, 2.2, 1.0, 0.19
# A marked range is at least so wide.
LEAST_POINTS = 3.1
POINTS, PNG_DOTS = 72, 120
MOST_LABELS = 8
# A label that is closer to the next one than this part of the usual distance is left out.
CLOSE = 0.9
# A title has so many lines of so many letters.
TITLE_LETTERS, TITLE_LINES = 90, 3
LEGEND_ROWS = 14
# A line of more points is thinner.
MANY_POINTS = 1000
# How far a picture goes on after its end, so that what is at the end can be seen.
ROOM = 0.01
DAY = 86400
FORMATS: dict[str, dict[str, Any]] = {"png": {"dpi": PNG_DOTS}, "svg": {"metadata": {"Date": None}}}


@contextmanager
def settings() -> Iterator[None]:
    """How matplotlib works here: an SVG has its texts as texts, and is the same each time."""
    import matplotlib

    style = {"svg.fonttype": "none", "svg.hashsalt": "tsq", "font.size": 9, "axes.titlesize": 11,
             "hatch.linewidth": 0.6, "axes.formatter.useoffset": False, "path.simplify": True}  # fmt: skip
    logging.getLogger("matplotlib").setLevel(logging.ERROR)
    with warnings.catch_warnings(), matplotlib.rc_context(style):
        # Such as a letter that the font lacks.
        warnings.simplefilter("ignore")
        yield


def plain(text: str) -> str:
    """A text as matplotlib shows it as it is: a dollar would begin a formula, `_` in front hides a title, and an SVG
    can't have control characters."""
    text = "".join(char if char.isprintable() else "\ufffd" for char in text).replace("$", r"\$")
    return f" {text}" if text.startswith("_") else text


# ---- the axis of times


def date_format(moments: list[datetime]) -> str:
    """The form of labels for these times: as long as it must be so that they are told apart, and whole."""
    if any(moment.microsecond for moment in moments):
        return "%H:%M:%S.%f\n%Y-%m-%d"
    if any(moment.second for moment in moments):
        return "%H:%M:%S\n%Y-%m-%d"
    if any(moment.hour or moment.minute for moment in moments):
        return "%H:%M\n%Y-%m-%d"
    if any(moment.day > 1 for moment in moments):
        return "%Y-%m-%d"
    return "%Y-%m" if any(moment.month > 1 for moment in moments) else "%Y"


def is_crowded(places: Sequence[float], number: int) -> bool:
    """Whether a label would meet the next one, which is closer than others: such as that of a month's first day."""
    gaps = [after - place for place, after in zip(places, places[1:])]
    return number < len(gaps) and gaps[number] < CLOSE * median(gaps)


def title_of(picture: Picture) -> str:
    """The title in lines that fit; of a long one the begin."""
    lines = textwrap.wrap(picture.title, TITLE_LETTERS, max_lines=TITLE_LINES, placeholder=" ..")
    return "\n".join(map(plain, lines))


class Times:
    """Puts times on the axis: as matplotlib counts days, or as the numbers that they are."""

    def __init__(self, picture: Picture) -> None:
        self.seconds = UNITS[picture.unit] if picture.unit else None
        self.zone = ZoneInfo(picture.zone)
        for bound in (picture.start, picture.end):
            self.moment(bound)

    def moment(self, time: int) -> datetime | None:
        """A time as a date, if there is a unit."""
        if self.seconds is None:
            return None
        try:
            return datetime.fromtimestamp(time / self.seconds, timezone.utc).astimezone(self.zone)
        except (OverflowError, ValueError, OSError):
            raise Trouble(OUTSIDE) from None

    def place(self, time: float) -> float:
        """The place of a time on the axis."""
        return time if self.seconds is None else time / self.seconds / DAY

    def put_labels(self, axes: Axes) -> None:
        """Chooses where labels are, and what they say."""
        from matplotlib import dates, ticker

        if self.seconds is None:
            axes.xaxis.set_major_locator(ticker.MaxNLocator(MOST_LABELS - 1, integer=True))
            axes.xaxis.set_major_formatter(plain_numbers())
            return
        zone = self.zone

        class Dates(ticker.Formatter):  # type: ignore[misc]
            def format_ticks(self, values: Any) -> list[str]:
                moments = dates.num2date(values, tz=zone)
                form = date_format(moments)
                return ["" if is_crowded(values, at) else it.strftime(form) for at, it in enumerate(moments)]

            def __call__(self, value: float, place: int | None = None) -> str:
                return str(dates.num2date(value, tz=zone))

        axes.xaxis.set_major_locator(dates.AutoDateLocator(tz=zone, minticks=4, maxticks=MOST_LABELS))
        axes.xaxis.set_major_formatter(Dates())


def whole_numbers() -> Any:
    """Places of labels, where values are whole numbers: no label is between two of them."""
    from matplotlib import ticker

    return ticker.MaxNLocator(nbins="auto", steps=[1, 2, 2.5, 5, 10], integer=True)


def plain_numbers() -> Any:
    """Labels of numbers with all of their digits, so that no two are the same."""
    from matplotlib import ticker

    labels = ticker.ScalarFormatter(useOffset=False, useMathText=False)
    labels.set_scientific(False)
    return labels


# ---- panels


def draw_line(axes: Axes, line: Line, name: str, times: Times) -> Any:
    """Draws a line, and gives what stands for it in the legend."""
    places: list[float] = []
    values: list[float] = []
    for piece in line.pieces:
        # Not a number parts the pieces.
        places += [times.place(time) for time, _ in piece] + [times.place(piece[-1][0])]
        values += [value for _, value in piece] + [float("nan")]
    color, dashes = COLORS[line.look % len(COLORS)], DASHES[line.look // len(COLORS) % len(DASHES)]
    width = 1.6 if len(places) < MANY_POINTS else 0.8
    (drawn,) = axes.plot(places, values, color=color, linestyle=dashes, linewidth=width, gid=name)
    drawn.set_label(plain(line.title))
    return drawn


def draw_panel(axes: Axes, panel: Panel, name: str, times: Times, has_legend: bool) -> None:
    """Draws the lines of a panel, with its legend on the right."""
    shown = [draw_line(axes, line, f"{name}-line{number}", times) for number, line in enumerate(panel.lines, 1)]
    axes.set_ylabel(plain(panel.label))
    if all(value.is_integer() for line in panel.lines for piece in line.pieces for _, value in piece):
        axes.yaxis.set_major_locator(whole_numbers())
    axes.yaxis.set_major_formatter(plain_numbers())
    axes.margins(x=0, y=0.08)
    axes.grid(axis="y", color="#e6e6e6", linewidth=0.6)
    axes.set_axisbelow(True)
    for side in ("top", "right"):
        axes.spines[side].set_visible(False)
    if has_legend:
        columns = -(-len(shown) // LEGEND_ROWS)
        axes.legend(handles=shown, loc="upper left", bbox_to_anchor=(1.01, 1.02), frameon=False, ncol=columns,
                    borderaxespad=0, handlelength=2.6)  # fmt: skip


def titles_of(panel: Panel) -> list[tuple[str, int]]:
    """What a panel's legend says."""
    return [(line.title, line.look) for line in panel.lines]


def mark_ranges(picture: Picture, all_axes: list[Axes], kind: Kind, times: Times) -> None:
    """Shades the ranges of a kind, each at least three points wide, and points at what is stale from above."""
    marks = [mark for mark in picture.marks if mark.kind == kind]
    width = all_axes[0].get_window_extent().width / all_axes[0].figure.dpi * POINTS
    least = (picture.end - picture.start) * LEAST_POINTS / width
    for number, (low, high) in enumerate(widened(marks, least, picture.start, picture.end), 1):
        for place, axes in enumerate(all_axes, 1):
            shade = axes.axvspan(times.place(low), times.place(high), zorder=0, **SHADES[kind])
            shade.set_gid(f"panel{place}-{kind}{number}")
        if kind == "stale":
            top = all_axes[0]
            top.plot([times.place((low + high) / 2)], [1.0], marker=7, markersize=6, color=MARKED, clip_on=False,
                     transform=top.get_xaxis_transform(), gid=f"{kind}{number}-arrow", linestyle="none")  # fmt: skip


def draw_watermark(picture: Picture, all_axes: list[Axes], times: Times) -> None:
    """Draws the watermark as a line through all panels."""
    assert picture.watermark is not None
    for place, axes in enumerate(all_axes, 1):
        axes.axvline(times.place(picture.watermark), color=WATERMARK, linewidth=1.2, linestyle=(0, (1.5, 2)), zorder=1,
                     gid=f"panel{place}-watermark")  # fmt: skip


def symbol(kind: Kind | None, is_note: bool) -> Any:
    """What stands before a line of words: a kind's shade, the watermark's line, or nothing before a note."""
    from matplotlib.lines import Line2D
    from matplotlib.patches import Patch

    if kind:
        return Patch(**SHADES[kind])
    if is_note:
        return Line2D([], [], linestyle="none")
    return Line2D([], [], color=WATERMARK, linewidth=1.2, linestyle=(0, (1.5, 2)))


def put_words(figure: Figure, picture: Picture) -> None:
    """Puts what the marks mean, and the notes, below the picture."""
    if picture.words:
        handles = [symbol(word.kind, word.is_note) for word in picture.words]
        labels = [plain(word.text) for word in picture.words]
        figure.legend(handles, labels, loc="lower left", frameon=False, ncol=1, borderaxespad=0.3, labelspacing=0.4)


# ---- all of it


def laid_out(picture: Picture) -> tuple[Figure, list[Axes]]:
    """A figure with as many panels as the picture has, one above the other, and room for the words below."""
    from matplotlib.backends.backend_agg import FigureCanvasAgg
    from matplotlib.figure import Figure
    from matplotlib.layout_engine import ConstrainedLayoutEngine

    words = WORD * len(picture.words)
    height = FRAME + PANEL * len(picture.panels) + words
    bottom = words / height
    layout = ConstrainedLayoutEngine(rect=(0, bottom, 1, 1 - bottom), w_pad=0.1, h_pad=0.08)
    figure = Figure(figsize=(WIDTH, height), dpi=PNG_DOTS, layout=layout)
    FigureCanvasAgg(figure)
    all_axes = list(figure.subplots(len(picture.panels), sharex=True, squeeze=False)[:, 0])
    return figure, all_axes


def drawn(picture: Picture) -> Figure:
    """The picture as a figure of matplotlib."""
    times = Times(picture)
    figure, all_axes = laid_out(picture)
    before: list[tuple[str, int]] = []
    for number, (axes, panel) in enumerate(zip(all_axes, picture.panels), 1):
        titles = titles_of(panel)
        has_legend = titles != before and [title for title, _ in titles] != [panel.label]
        draw_panel(axes, panel, f"panel{number}", times, has_legend)
        before = titles
    all_axes[0].set_title(title_of(picture), loc="left", pad=12, fontweight="bold")
    all_axes[-1].set_xlabel(plain(picture.axis))
    all_axes[-1].set_xlim(times.place(picture.start), times.place(picture.end + ROOM * (picture.end - picture.start)))
    times.put_labels(all_axes[-1])
    put_words(figure, picture)
    # What is as wide as some points is known once the panels have their places.
    figure.canvas.draw()
    for kind in SHADES:
        mark_ranges(picture, all_axes, kind, times)
    if picture.watermark is not None:
        draw_watermark(picture, all_axes, times)
    return figure


def render(picture: Picture) -> dict[str, bytes]:
    """The bytes of the picture in each form, by the ends of their files' names."""
    with settings():
        figure = drawn(picture)
        found = {}
        for end, how in FORMATS.items():
            file = io.BytesIO()
            figure.savefig(file, format=end, **how)
            found[end] = file.getvalue()
    return found


def main() -> int:
    """Draws for another Python."""
    try:
        import matplotlib.layout_engine as _
    except ImportError:
        return NOTHING_DRAWS
    picture = pickle.load(sys.stdin.buffer)
    try:
        sys.stdout.buffer.write(pickle.dumps(render(picture)))
    except Trouble as trouble:
        print(trouble, file=sys.stderr)
        return 2
    return 0


if __name__ == "__main__":
    sys.exit(main())
