"""Pictures in SVG for a page about a run: spreads on a logarithmic axis, bars over time.

usage: from charts import bars, over_time, spread

It is not proved. Colours are classes and letters are the page's, so the page says how they look in light,
in dark and in print. All are 440 units wide, so that their letters can be read on a phone.
"""

import math
from collections.abc import Sequence
from html import escape
from typing import NamedTuple

from measures import nice

WIDE, LEFT, RIGHT = 440, 92, 14
ROW, LETTER = 20, 12


class Spread(NamedTuple):
    """A line of `snb latency`: of a kind the least value, four percentiles and the greatest."""

    kind: str
    measure: str
    count: int
    least: int
    p50: int
    p90: int
    p95: int
    p99: int
    most: int


def element(name: str, text: str = "", **given: str | float) -> str:
    shown = "".join(f' {key.rstrip("_").replace("_", "-")}="{number(it)}"' for key, it in given.items())
    return f"<{name}{shown}>{escape(text)}</{name}>"


def number(value: str | float) -> str:
    return escape(value) if isinstance(value, str) else f"{round(value, 2):g}"


def svg(height: float, parts: Sequence[str], title: str) -> str:
    inside = element("title", title) + "".join(parts)
    return f'<svg viewBox="0 0 {WIDE} {number(height)}" role="img">{inside}</svg>'


def text(x: float, y: float, shown: str, anchor: str = "start") -> str:
    return element("text", shown, x=x, y=y, text_anchor=anchor)


def line(x1: float, y1: float, x2: float, y2: float, of: str) -> str:
    return element("line", x1=x1, y1=y1, x2=x2, y2=y2, class_=of)


def box(x: float, y: float, width: float, height: float, of: str) -> str:
    return element("rect", x=x, y=y, width=max(width, 0.8), height=height, class_=of)


def spread(rows: Sequence[Spread], title: str) -> str:
    """Of each row a line from the least to the greatest, a bar from the 50th to the 95th percentile."""
    most = max(max(it.most for it in rows), 10)
    top = math.log10(most + 1)

    def at(value: int) -> float:
        # One more, so that 0 has a place too.
        return LEFT + (WIDE - LEFT - RIGHT) * math.log10(value + 1) / top

    bottom = 8 + ROW * len(rows)
    parts = []
    for value in ticks_of_log(most):
        parts.append(line(at(value), 4, at(value), bottom, "grid"))
        parts.append(text(at(value), bottom + 14, short(value), "middle"))
    for row, it in enumerate(rows):
        middle = 8 + ROW * row + ROW / 2
        parts.append(text(LEFT - 8, middle + 4, it.kind, "end"))
        parts.append(line(at(it.least), middle, at(it.most), middle, "whole"))
        parts += [line(at(end), middle - 4, at(end), middle + 4, "whole") for end in (it.least, it.most)]
        parts.append(box(at(it.p50), middle - 6, at(it.p95) - at(it.p50), 12, "half"))
        parts.append(line(at(it.p99), middle - 6, at(it.p99), middle + 6, "high"))
    parts.append(text((LEFT + WIDE - RIGHT) / 2, bottom + 31, "milliseconds, logarithmic", "middle"))
    return svg(bottom + 38, parts, title)


def ticks_of_log(most: int) -> list[int]:
    """Where the axis has numbers: so many that they don't touch."""
    decades = [10**it for it in range(19) if 10**it <= most]
    if len(decades) <= 3:
        found = [one * it for it in decades for one in (1, 2, 5) if one * it <= most]
    else:
        step = (len(decades) - 1) // 7 + 1
        # Where decades are narrow, 1 is too near to 0.
        found = decades if step == 1 else decades[step :: step]
    return [0, *found]


def short(value: float) -> str:
    """A number on an axis."""
    units = ((10**18, "E"), (10**15, "P"), (10**12, "T"), (10**9, "G"), (10**6, "M"), (10**3, "k"))
    for scale, unit in units:
        if value >= scale:
            return f"{value / scale:g}{unit}"
    return f"{value:g}"


def time_axis(most: int) -> tuple[int, str]:
    """How many milliseconds the unit of a time axis has, and its name."""
    units = ((86_400_000, "days"), (3_600_000, "hours"), (60_000, "minutes"), (1000, "seconds"))
    for scale, name in units:
        if most >= 2 * scale:
            return scale, name
    return 1, "milliseconds"


def steps(most: float, count: int) -> list[float]:
    """Round values from 0 up to one that is no less than the greatest, in at most so many steps."""
    scale = 1.0
    while most / scale < 10:
        scale /= 10
    step = nice(most / scale / count) * scale
    return [step * it for it in range(math.ceil(most / step - 1e-9) + 1)]


class Bar(NamedTuple):
    """From when on, a value, and one within it that is shown darker, each if there is one."""

    begin: int
    value: float | None
    within: float | None = None


def over_time(found: Sequence[Bar], width: int, end: int, title: str, mark: float | None = None) -> str:
    """Bars over the time of a run, with a line across at a mark where that is on the picture."""
    high, left = 150, 52
    values = steps(max([it.value or 0 for it in found] + [0.001]), 4)
    scale, unit = time_axis(end)
    last = max(end, width)
    times = [it for it in steps(end / scale, 6) if it * scale <= last]

    def x(at: float) -> float:
        return left + (WIDE - left - RIGHT) * min(at / last, 1)

    def y(value: float) -> float:
        return 10 + high * (1 - value / values[-1])

    parts = []
    for value in values:
        parts.append(line(left, y(value), WIDE - RIGHT, y(value), "grid"))
        parts.append(text(left - 6, y(value) + 4, short(round(value, 6)), "end"))
    for value in times:
        parts.append(text(x(value * scale), high + 26, short(round(value, 6)), "middle"))
    for it in found:
        for of, value in (("part", it.value), ("half", it.within)):
            if value:
                parts.append(box(x(it.begin), y(value), x(it.begin + width) - x(it.begin) - 0.6, y(0) - y(value), of))
    if mark is not None and mark <= values[-1]:
        parts.append(line(left, y(mark), WIDE - RIGHT, y(mark), "high"))
    parts.append(line(left, y(0), WIDE - RIGHT, y(0), "axis"))
    parts.append(text((left + WIDE - RIGHT) / 2, high + 43, f"{unit} since the run began", "middle"))
    return svg(high + 50, parts, title)


def bars(rows: Sequence[tuple[str, float, str]], title: str) -> str:
    """A bar for each row, with its name before it and its value in words behind."""
    most, behind = max([it[1] for it in rows] + [0.001]), 120
    parts = []
    for row, (name, value, shown) in enumerate(rows):
        middle = 4 + ROW * row + ROW / 2
        length = (WIDE - LEFT - behind) * value / most
        parts.append(text(LEFT - 8, middle + 4, name, "end"))
        parts.append(box(LEFT, middle - 7, length, 14, "half"))
        parts.append(text(LEFT + length + 6, middle + 4, shown))
    return svg(8 + ROW * len(rows), parts, title)
