"""The few elements of SVG that a picture has. Text stays text. Not proved."""
from __future__ import annotations

from html import escape


def number(value: float) -> str:
    """A coordinate, with at most one digit behind the point."""
    return f"{value:.1f}".rstrip("0").rstrip(".")


def element(name: str, content: str | None = None, **attributes: object) -> str:
    """An element; an attribute's name has `_` for `-`, and `kind` for `class`."""
    words = [name]
    for key, value in attributes.items():
        told = number(value) if isinstance(value, (int, float)) else escape(str(value))
        words.append(f'{"class" if key == "kind" else key.replace("_", "-")}="{told}"')
    head = " ".join(words)
    return f"<{head}/>" if content is None else f"<{head}>{content}</{name}>"


def text(x: float, y: float, words: str, kind: str, anchor: str = "start") -> str:
    return element("text", escape(words), x=x, y=y, kind=kind, text_anchor=anchor)


def line(x1: float, y1: float, x2: float, y2: float, kind: str) -> str:
    return element("line", x1=x1, y1=y1, x2=x2, y2=y2, kind=kind)


def rectangle(x: float, y: float, width: float, height: float, kind: str) -> str:
    return element("rect", x=x, y=y, width=width, height=height, kind=kind)


def arrow_head(x: float, y: float, direction: int, kind: str, size: float = 5) -> str:
    """A head whose point is at the place: to the right with direction 1, to the left with -1."""
    back = x - direction * size
    return element("path", d=f"M{number(x)} {number(y)}L{number(back)} {number(y - size / 2)}V{number(y + size / 2)}Z", kind=kind)


def cross(x: float, y: float, kind: str, size: float = 5) -> str:
    """The mark of a loss."""
    a, b, c, d = number(x - size), number(x + size), number(y - size), number(y + size)
    return element("path", d=f"M{a} {c}L{b} {d}M{a} {d}L{b} {c}", kind=kind)


def document(width: float, height: float, title: str, description: str, style: str, parts: list[str]) -> str:
    """A whole picture, with a title and a description for those who don't see it."""
    head = f'<svg xmlns="http://www.w3.org/2000/svg" width="{number(width)}" height="{number(height)}" '
    head += f'viewBox="0 0 {number(width)} {number(height)}" role="img" aria-labelledby="title description">'
    named = [element("title", escape(title), id="title"), element("desc", escape(description), id="description")]
    return "\n".join([head, *named, element("style", style), *parts, "</svg>", ""])
