"""The charts of the page, as inline SVG."""

from __future__ import annotations

from collections.abc import Iterator
from typing import NamedTuple

from . import text
from .tallies import Timeline


class Series(NamedTuple):
    """A part of each bar: its name, and its class in the page's style."""

    name: str
    style: str


# The height of a timeline in pixels, and the space above and below its bars. Its x coordinates are
# percentages, so that it fits any width.
HEIGHT = 190
TOP, BOTTOM = 12, 26
# A timeline has room for at least so many bars; fewer would be too wide.
FEWEST = 24
# Seconds between marks of the time axis, and the most marks.
_MARKS: tuple[int, ...] = (
    1,
    5,
    10,
    15,
    30,
    60,
    120,
    300,
    600,
    900,
    1800,
    3600,
    7200,
    10800,
    21600,
    43200,
    86400,
    172800,
    345600,
    604800,
    1209600,
)
_MARKS += (
    2419200,
    4838400,
    15724800,
    31449600,
    62899200,
    314496000,
    628992000,
    3144960000,
    62899200000,
)
MOST_MARKS, MOST_ON_NARROW = 7, 3


def bar(part: int, whole: int, title: str, style: str = "share") -> str:
    """A bar whose length is the share of the whole."""
    width = 100 * part / whole if whole else 0
    return (
        f'<svg class="bar" viewBox="0 0 100 10" preserveAspectRatio="none" role="img"><title>{text.escaped(title)}</title>'
        f'<rect class="ground" width="100" height="10"/><rect class="{style}" width="{width:.2f}" height="10"/></svg>'
    )


def legend(series: tuple[Series, ...]) -> str:
    items = "".join(
        f'<li><svg class="key" viewBox="0 0 10 10" aria-hidden="true"><rect class="{one.style}" width="10" height="10"/></svg>'
        f"{text.escaped(one.name)}</li>"
        for one in series
    )
    return f'<ul class="legend">{items}</ul>'


def timeline(name: str, title: str, line: Timeline, series: tuple[Series, ...]) -> str:
    """Stacked bars over time, one for each interval. The name distinguishes charts of the page."""
    first, count = line.first, max(line.last - line.first + 1, FEWEST)
    highest = max(sum(counts) for counts in line.intervals.values())
    top, marks = scale(highest)
    start, span = first * line.step, count * line.step
    parts = [
        f'<div class="timeline">{_axis(top, marks)}<svg class="plot" role="img" aria-labelledby="{name}-title">'
    ]
    parts += [f'<title id="{name}-title">{text.escaped(title)}</title>', *_grid(top, marks)]
    for style, most in (("wide", MOST_MARKS), ("narrow", MOST_ON_NARROW)):
        parts += [f'<g class="{style}">', *_times(start, span, most), "</g>"]
    for place, counts in sorted(line.intervals.items()):
        parts.append(
            _bar(
                100 * (place - first) / count,
                100 / count,
                place * line.step,
                line.step,
                counts,
                top,
                series,
            )
        )
    return "".join([*parts, "</svg></div>"])


def scale(highest: int) -> tuple[int, list[int]]:
    """The top of an axis that reaches this number, and its marks: at most six steps of 1, 2 or 5
    times a power of ten."""
    step, factors = 1, (2, 2.5, 2)
    turn = 0
    while highest > 6 * step:
        step = int(step * factors[turn % 3])
        turn += 1
    count = max(-(-highest // step), 1)
    return step * count, [step * place for place in range(count + 1)]


def _height(value: int, top: int) -> float:
    return (HEIGHT - TOP - BOTTOM) * value / top


def _height_of(mark: int, top: int) -> str:
    return f"{HEIGHT - BOTTOM - _height(mark, top):.1f}"


def _axis(top: int, marks: list[int]) -> str:
    """The labels of the vertical axis."""
    labels = "".join(
        f'<text x="100%" y="{_height_of(mark, top)}" dy="4">{text.number(mark)}</text>'
        for mark in marks
    )
    return f'<svg class="axis" aria-hidden="true">{labels}</svg>'


def _grid(top: int, marks: list[int]) -> Iterator[str]:
    for mark in marks:
        y = _height_of(mark, top)
        yield f'<line class="grid" x1="0" x2="100%" y1="{y}" y2="{y}"/>'


def _times(start: int, span: int, most: int) -> Iterator[str]:
    """Marks at multiples of their distance. The first mark, and the first of each day, have the
    date."""
    distance = next((mark for mark in _MARKS if span // mark < most), _MARKS[-1])
    days: set[str] = set()
    for at in range(
        -(-start // distance) * distance, min(start + span, text.END_OF_TIME), distance
    ):
        x = 100 * (at - start) / span
        day, time = text.time(at).split(" ")
        words = [] if day in days else [day]
        if distance % text.DAY:
            words.append(time if distance % 60 else time[:5])
        days.add(day)
        yield f'<line class="mark" x1="{x:.2f}%" x2="{x:.2f}%" y1="{HEIGHT - BOTTOM}" y2="{HEIGHT - BOTTOM + 4}"/>'
        # Keep a label at an end inside the chart.
        edge = 12 if most > MOST_ON_NARROW else 30
        anchor = "start" if x < edge / 2 else "end" if x > 100 - edge / 2 else "middle"
        yield f'<text text-anchor="{anchor}" x="{x:.2f}%" y="{HEIGHT - 6}">{" ".join(words)}</text>'


def _bar(
    x: float,
    room: float,
    start: int,
    step: int,
    counts: list[int],
    top: int,
    series: tuple[Series, ...],
) -> str:
    """The bar of an interval; its title has the counts."""
    shown = ", ".join(
        f"{text.number(count)} {one.name.lower()}" for one, count in zip(series, counts)
    )
    parts = [f"<g><title>{text.time(start)}, {text.duration(step)}: {text.escaped(shown)}</title>"]
    y = float(HEIGHT - BOTTOM)
    width = 0.85 * room
    for one, count in zip(series, counts):
        if count:
            y -= _height(count, top)
            parts.append(
                f'<rect class="{one.style}" x="{x:.2f}%" y="{y:.2f}" width="{width:.2f}%" height="{_height(count, top):.2f}"/>'
            )
    return "".join([*parts, "</g>"])
