"""A script's text, as far as the tools need it. Not proved: whether a text is a script, the program says.

docs/FORMATS.md, "Script".
"""
from __future__ import annotations

from dataclasses import dataclass, field
from typing import Iterable

DEFAULT_SEGMENT = 1514
MOST_SEGMENT = 8192
MOST_FRAMES = 65536
MOST_BYTES = 16_777_216
SENDERS = 4


@dataclass
class Script:
    """What a picture shows of a script: the pools' sizes in the order of their line, and the controls by their index."""

    requests: tuple[int, int, int, int] = (8, 8, 8, 8)
    controls: list[str] = field(default_factory=list)


def read_script(rows: Iterable[str]) -> Script:
    """The pools and the controls of a script, in a text that the program takes as one."""
    script = Script()
    for number, row in enumerate(rows, 1):
        words = row.rstrip("\n").split(" ")
        try:
            if words[0] == "requests":
                script.requests = tuple(map(int, words[1:5]))
                if len(script.requests) != 4:
                    raise ValueError
            elif words[0] == "at":
                script.controls.append(" ".join(words[3:]))
        except ValueError:
            raise ValueError(f"line {number} of the script isn't understood: {row.strip()[:60]!r}") from None
    return script
