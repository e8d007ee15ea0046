"""The strip of a picture: how many requests of each pool are at home, line by line. Not proved."""
from __future__ import annotations

from . import svg
from .layout import MARGIN, TEXT_WIDTH, Layout
from .ways import POOLS, Homes

HEAD = 44
BAND = 34
SCALE = 20
STRIP_HEIGHT = HEAD + 4 * BAND + SCALE
NAMES = {
    "tx out": "outward, transmit (host)",
    "rx out": "outward, receive (gadget)",
    "tx in": "inward, transmit (gadget)",
    "rx in": "inward, receive (host)",
}
LEAST_BETWEEN = 44


def strip(homes: Homes, layout: Layout) -> list[str]:
    """The strip below a layout's rows: a band for each pool, and the lines' numbers under them."""
    top = layout.bottom + HEAD
    parts = [svg.text(MARGIN, layout.bottom + 30, "Requests at home", "station")]
    left, right = MARGIN + TEXT_WIDTH, layout.width - 2 * MARGIN
    for index, pool in enumerate(POOLS):
        parts += _band(homes, pool, layout, left, right, top + index * BAND)
    return parts + _scale(layout, left, right, top + len(POOLS) * BAND)


def _band(homes: Homes, pool: str, layout: Layout, left: float, right: float, top: float) -> list[str]:
    """One pool: its name and size, and a step for each line."""
    size = homes.size(pool)
    known = pool in homes.sizes
    bottom, room = top + BAND - 6, BAND - 10
    told = f"of {size}" if known else f"of {size} or more" if size else "never away"
    parts = [svg.text(MARGIN, bottom - 8, NAMES[pool], ""), svg.text(left - 10, bottom - 8, told, "faint", "end")]
    step = (right - left) / len(layout.lines)
    x, y, path = left, bottom, f"M{svg.number(left)} {svg.number(bottom)}"
    for number, counts in homes.away:
        if layout.shows(number):
            y = bottom - room * (size - counts[POOLS.index(pool)]) / max(1, size)
            path += f"V{svg.number(y)}H{svg.number(x + step)}"
            x += step
    parts += [svg.element("path", d=f"{path}V{svg.number(bottom)}Z", kind="bar"), svg.line(left, bottom, right, bottom, "rule")]
    return parts + [svg.text(right + 4, bottom - room + 8, str(size), "faint"), svg.text(right + 4, bottom + 3, "0", "faint")]


def _scale(layout: Layout, left: float, right: float, top: float) -> list[str]:
    """The numbers of the lines, so many that they don't touch."""
    step = (right - left) / len(layout.lines)
    every = next(every for every in (1, 2, 5, 10, 20, 50, 100, 200, 500, 1000, 10**9) if every * step >= LEAST_BETWEEN or every == 10**9)
    parts = []
    for index, line in enumerate(layout.lines):
        if line.number % every == 0:
            x = left + (index + 0.5) * step
            parts += [svg.line(x, top - 6, x, top - 2, "rule"), svg.text(x, top + 9, str(line.number), "faint", "middle")]
    return parts + [svg.text(left - 10, top + 9, "line", "faint", "end")]
