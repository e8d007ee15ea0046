"""Reads what `usbnet serial` and `usbnet run` print: a trace, and the report behind it. Not proved.

docs/FORMATS.md has both texts. KINDS is the table of the trace's lines: a further kind is a row of it.
"""
from __future__ import annotations

import re
from dataclasses import dataclass, field
from typing import Callable, Iterable, TextIO


class TraceError(Exception):
    """The text isn't a trace; the message begins with the line."""


def _number(word: str) -> int:
    if not re.fullmatch(r"0|[1-9][0-9]{0,19}", word):
        raise ValueError("a number")
    return int(word)


def _bytes(word: str) -> bytes:
    if not re.fullmatch(r"([0-9a-f]{2})+", word):
        raise ValueError("bytes in pairs of lower-case digits")
    return bytes.fromhex(word)


def _one_of(*words: str) -> Callable[[str], str]:
    def read(word: str) -> str:
        if word not in words:
            raise ValueError(" or ".join(words))
        return word

    return read


LANES = ("out", "in")
# how each field is read; a field that isn't here is a number
FIELDS: dict[str, Callable[[str], object]] = {
    "lane": _one_of(*LANES),
    "why": _one_of("short", "long", "filtered"),
    "fault": _one_of("proto", "halt"),
    "forced": _one_of("0", "1"),
    "bytes": _bytes,
}
KINDS = {
    "took": "lane sender",
    "refused": "lane sender why",
    "made": "lane serial from to bytes",
    "waited": "lane",
    "posted": "lane",
    "flying": "lane serial",
    "landed": "lane serial",
    "failed": "lane serial fault",
    "retried": "lane serial attempt",
    "marked": "lane serial control",
    "cut": "lane serial control",
    "dropped": "lane from to control",
    "txhome": "lane serial",
    "opened": "lane serial",
    "gave": "lane datagram bytes",
    "recalled": "lane",
    "cleared": "lane",
    "did": "control forced",
    "settled": "tx_out rx_out tx_in rx_in",
}


@dataclass(frozen=True)
class Line:
    """A line of a trace: its number in the text from 1 on, its kind, and its fields by their names in KINDS."""

    number: int
    kind: str
    fields: dict

    def __getitem__(self, name: str):
        return self.fields[name]

    @property
    def lane(self) -> str | None:
        return self.fields.get("lane")

    @property
    def text(self) -> str:
        """The line without its bytes, whose count stands there."""
        words = (f"<{len(value)} bytes>" if isinstance(value, bytes) else str(value) for value in self.fields.values())
        return " ".join([self.kind, *words])


@dataclass
class Report:
    """What the tools take from a report: the class, the sizes of frame, packet and block, and the set-up's control transfers."""

    wire: str = ""
    segment: int = 1514
    packet: int = 512
    block: int = 0
    controls: list[tuple[bytes, bytes]] = field(default_factory=list)


@dataclass
class Output:
    """What a run printed: its trace, and its report where there is one."""

    lines: list[Line]
    report: Report | None = None


def read_line(number: int, text: str) -> Line:
    """The line of a trace that this text is."""
    kind, *words = text.split(" ")
    if kind not in KINDS:
        raise TraceError(f"line {number}: {text[:60]!r} isn't understood: a line begins with {', '.join(KINDS)}")
    names = KINDS[kind].split()
    if len(words) != len(names):
        raise TraceError(f"line {number}: {text[:60]!r} isn't understood: {kind} has the words {' '.join(names)}")
    fields = {}
    for name, word in zip(names, words):
        try:
            fields[name] = FIELDS.get(name, _number)(word)
        except ValueError as wanted:
            raise TraceError(f"line {number}: {text[:60]!r} isn't understood: {word[:20]!r} is no {name}, which is {wanted}") from None
    return Line(number, kind, fields)


def read_output(stream: TextIO | Iterable[str]) -> Output:
    """The trace in a text, from its line `trace` to its line `end`, and the report that may follow."""
    rows = [row.rstrip("\n") for row in stream]
    if not rows or rows[0] != "trace":
        told = f": {rows[0][:60]!r}" if rows else ""
        raise TraceError(f"line 1: a trace begins with the line `trace`{told}; `usbnet serial < SCRIPT` prints one")
    if "end" not in rows:
        raise TraceError(f"line {len(rows) + 1}: the trace ends without its line `end`")
    end = rows.index("end")
    lines = [read_line(number, text) for number, text in enumerate(rows[1:end], 2)]
    return Output(lines, read_report(rows[end + 1 :], end + 2))


def read_report(rows: list[str], number: int) -> Report | None:
    """The report in the rows, the first of which has this number; none where there are none."""
    if not rows:
        return None
    if rows[0] != "report":
        raise TraceError(f"line {number}: {rows[0][:60]!r} isn't understood: behind a trace comes a report or nothing")
    report = Report()
    for place, row in enumerate(rows, number):
        word, *rest = row.split(" ")
        try:
            if word == "class":
                (report.wire,) = rest
            elif word == "sizes":
                report.segment, report.packet, report.block = map(_number, rest)
            elif word == "control":
                setup, payload = rest
                report.controls.append((_bytes(setup), b"" if payload == "-" else _bytes(payload)))
        except ValueError:
            raise TraceError(f"line {place}: {row[:60]!r} isn't understood") from None
    return report
