"""Colours for many things, each of the same lightness to the eye. Not proved."""
from __future__ import annotations

import math

# hues one after the other that are far from each other, however many there are
GOLDEN_ANGLE = 137.508


def _linear(lightness: float, chroma: float, hue: float) -> list[float]:
    """Linear red, green and blue of a colour in OKLCH (Ottosson, 2020)."""
    a, b = chroma * math.cos(math.radians(hue)), chroma * math.sin(math.radians(hue))
    long = (lightness + 0.3963377774 * a + 0.2158037573 * b) ** 3
    middle = (lightness - 0.1055613458 * a - 0.0638541728 * b) ** 3
    short = (lightness - 0.0894841775 * a - 1.2914855480 * b) ** 3
    return [
        4.0767416621 * long - 3.3077115913 * middle + 0.2309699292 * short,
        -1.2684380046 * long + 2.6097574011 * middle - 0.3413193965 * short,
        -0.0041960863 * long - 0.7034186147 * middle + 1.7076147010 * short,
    ]


def colour(lightness: float, hue: float) -> str:
    """The strongest colour of this lightness and hue that a screen has, as `#rrggbb`."""
    chroma = 0.19
    while any(part < 0 or part > 1 for part in _linear(lightness, chroma, hue)):
        chroma -= 0.01
    parts = _linear(lightness, chroma, hue)
    shown = [12.92 * part if part <= 0.0031308 else 1.055 * part ** (1 / 2.4) - 0.055 for part in parts]
    return "#" + "".join(f"{round(255 * part):02x}" for part in shown)


def hue(index: int) -> float:
    return (255 + index * GOLDEN_ANGLE) % 360
