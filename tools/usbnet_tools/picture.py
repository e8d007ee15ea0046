"""The tool picture: a trace as a sequence diagram. Not proved."""
from __future__ import annotations

import argparse
import sys
from html import escape
from pathlib import Path
from typing import Callable

from . import NOT_PROVED, svg
from .colours import colour, hue
from .layout import HEADER, MARGIN, STATIONS, Layout
from .script import Script, read_script
from .strip import STRIP_HEIGHT, strip
from .trace import Line, TraceError, read_output
from .ways import BUS, RECEIVING_APP, RECEIVING_END, SENDING_APP, SENDING_END, History, Way

LIGHT = {"paper": "#ffffff", "band": "#f3f4f6", "ink": "#1f2328", "faint": "#59636e", "rule": "#c4cad1", "loss": "#b3140f", "fill": "#9fb6d4"}
DARK = {"paper": "#0d1117", "band": "#171c24", "ink": "#e6edf3", "faint": "#9aa4af", "rule": "#3d444d", "loss": "#ff8d85", "fill": "#3f5f8a"}
SHAPES = """\
text { font-family: system-ui, 'DejaVu Sans', sans-serif; font-size: 11px }
.title { font-size: 15px; font-weight: 600 }
.station { font-size: 12px; font-weight: 600 }
.code { font-family: ui-monospace, 'DejaVu Sans Mono', monospace; font-size: 10.5px; white-space: pre }
.way { fill: none; stroke-linejoin: round }
.halo { paint-order: stroke; stroke-width: 3px; stroke-linejoin: round }
.request { stroke-dasharray: 3 3 }
.cross { fill: none; stroke-width: 2.2 }
.number { font-weight: 600 }
"""
# the width of a letter of the small text, on the average
LETTER = 6.2
EPILOG = """\
  usbnet serial < SCRIPT | picture --script SCRIPT > PICTURE.svg

Time goes down, a row for each line of the trace. Each datagram's way has a colour of its own: from the sending app over the sending end,
where it waits, the bus and the receiving end to the receiving app, outward from left to right, inward from right to left. A cross is a
loss, with its cause. Dashed arrows are requests: posted and recalled ones of the receiving end, and those that come home to the sending
end. The strip below shows how many requests of each pool are at home.
"""


def rules(names: dict[str, str], lightness: float, ways: int) -> str:
    """The colours of a scheme: its names, and one for each way."""
    told = [
        f".paper {{ fill: {names['paper']} }} .band {{ fill: {names['band']} }} .bar {{ fill: {names['fill']} }}",
        f"text {{ fill: {names['ink']} }} .faint {{ fill: {names['faint']} }} .halo {{ stroke: {names['paper']} }}",
        f".rule {{ stroke: {names['rule']} }} .request, .short {{ stroke: {names['faint']} }} .head {{ fill: {names['faint']} }}",
        f".lost {{ fill: {names['loss']} }} .cross {{ stroke: {names['loss']} }} .note {{ stroke: {names['ink']} }}",
    ]
    for index in range(ways):
        shade = colour(lightness, hue(index))
        told.append(f".s{index} {{ stroke: {shade} }} .f{index} {{ fill: {shade} }}")
    return "\n".join(told)


class Drawing:
    """Draws the lines of a layout."""

    def __init__(self, layout: Layout):
        self.layout = layout
        self.history = layout.history
        self.parts: list[str] = []
        """What stands behind, and the ways."""
        self.words: list[str] = []
        """What is written over them."""
        self.ways = layout.ways()
        self.colours = {(way.lane, way.number): index for index, way in enumerate(self.ways)}

    def draw(self) -> list[str]:
        self._ground()
        for way in self.ways:
            self._way(way)
        for line in self.layout.lines:
            call = CALLS.get(line.kind, Drawing.note)
            call(self, line)
        return self.parts + self.words

    def _ground(self) -> None:
        layout = self.layout
        for count, line in enumerate(layout.lines):
            y, height = layout.rows[line.number], layout.heights[line.number]
            if count % 2:
                self.parts.append(svg.rectangle(MARGIN, y - height / 2, layout.width - 2 * MARGIN, height, "band"))
            self.words.append(svg.text(MARGIN + 26, y + 4, str(line.number), "code faint", "end"))
            self.words.append(svg.text(MARGIN + 36, y + 4, line.text, "code"))
        for x in layout.columns:
            self.parts.append(svg.line(x, layout.top, x, layout.bottom, "rule"))
        for y in layout.headers:
            self.parts.append(svg.rectangle(MARGIN, y, layout.width - 2 * MARGIN, HEADER, "paper"))
            for x, name in zip(layout.columns, STATIONS):
                self.words.append(svg.text(x, y + 17, name, "station halo", "middle"))

    def _way(self, way: Way) -> None:
        """A datagram's way through the lines that are shown, with heads where it goes on and its number at its ends."""
        layout, index = self.layout, self.colours[way.lane, way.number]
        places, heads = self._places(way)
        path = f"M{svg.number(places[0][0])} {svg.number(places[0][1])}" + "".join(f"L{svg.number(x)} {svg.number(y)}" for x, y in places[1:])
        title = svg.element("title", escape(way.told))
        self.parts.append(svg.element("path", title, d=path, kind=f"way s{index}"))
        direction = 1 if way.lane == "out" else -1
        self.parts += [svg.arrow_head(x, y, to, f"f{index}") for x, y, to in heads]
        if layout.shows(way.moves[0].line):
            x, y = places[0]
            self.words.append(svg.text(x - 6 * direction, y + 4, str(way.number), f"number halo f{index}", "end" if direction > 0 else "start"))
        if way.station == RECEIVING_APP and layout.shows(way.moves[-1].line):
            x, y = places[-1]
            self.words.append(svg.text(x + 6 * direction, y + 4, str(way.number), f"number halo f{index}", "start" if direction > 0 else "end"))

    def _places(self, way: Way) -> tuple[list[tuple[float, float]], list[tuple[float, float, int]]]:
        """The corners of a way, and those at which it reaches a station, with the direction in which it does."""
        layout = self.layout
        places: list[tuple[float, float]] = []
        heads: list[tuple[float, float, int]] = []
        station = SENDING_APP
        for move in way.moves:
            if move.line > layout.last:
                break
            if layout.shows(move.line):
                y = layout.strand(move.line, way)
                if not places and station != SENDING_APP:
                    places.append((layout.track(way, station), layout.top))
                places += [(layout.track(way, station), y), (layout.track(way, move.station), y)]
                heads.append((*places[-1], 1 if places[-1][0] > places[-2][0] else -1))
            station = move.station
        if station != RECEIVING_APP:
            x = layout.track(way, station)
            places += [] if places else [(x, layout.top)]
            is_lost = way.loss and layout.shows(way.loss[0])
            places.append((x, layout.strand(way.loss[0], way) if is_lost else layout.bottom))
        return places, heads

    def _between(self, line: Line, first: int, second: int) -> tuple[float, float, float]:
        """The places of a request that goes from one station to another, and the row's height."""
        return self.layout.column(line.lane, first), self.layout.column(line.lane, second), self.layout.rows[line.number]

    def _request(self, line: Line, first: int, second: int, words: str) -> None:
        begin, end, y = self._between(line, first, second)
        direction = 1 if end > begin else -1
        self._broken(begin, end - 4 * direction, y, words, "request", "faint halo")
        self.parts.append(svg.arrow_head(end, y, direction, "head"))

    def posted(self, line: Line) -> None:
        self._request(line, RECEIVING_END, BUS, "posted")

    def recalled(self, line: Line) -> None:
        self._request(line, BUS, RECEIVING_END, "recalled")

    def txhome(self, line: Line) -> None:
        self._request(line, BUS, SENDING_END, "request home")

    def made(self, line: Line) -> None:
        told = f"transfer {line['serial']}, {len(line['bytes']):,} bytes"
        begin, end, y = self._between(line, SENDING_END, BUS)
        self._dots(line, SENDING_END)
        self.words.append(svg.text((begin + end) / 2, y + 4, told, "halo", "middle"))

    def refused(self, line: Line) -> None:
        begin, end, y = self._between(line, SENDING_APP, SENDING_END)
        stop = begin + (end - begin) * 0.3
        self.parts += [svg.line(begin, y, stop, y, "short"), svg.cross(stop, y, "cross", 4)]
        anchor, side = ("start", 9) if end > begin else ("end", -9)
        self.words.append(svg.text(stop + side, y + 4, line["why"], "lost halo", anchor))

    def lost(self, line: Line) -> None:
        """Crosses at the ends of the ways that a line cuts, and the cause beside them."""
        ways = self.history.moved.get(line.number, [])
        if not ways:
            return self.note(line)
        direction = 1 if line.lane == "out" else -1
        places = [(self.layout.track(way, way.station), self.layout.strand(line.number, way)) for way in ways]
        self.parts += [svg.cross(x, y, "cross", 3.5) for x, y in places]
        x = (max if direction > 0 else min)(self.layout.column(line.lane, ways[0].station), *(x for x, _ in places)) + 10 * direction
        self.words.append(svg.text(x, self.layout.rows[line.number] + 4, ways[0].loss[1], "lost halo", "start" if direction > 0 else "end"))

    def retried(self, line: Line) -> None:
        self._beside(line, BUS, f"attempt {line['attempt']} failed", "lost halo")

    def marked(self, line: Line) -> None:
        ways = self.history.of_transfer(line)
        at = next((move.station for move in reversed(ways[0].moves) if move.line <= line.number), SENDING_END) if ways else BUS
        self._beside(line, at, f"marked by {self.history.cause(line['control'])}", "lost halo")

    def _beside(self, line: Line, station: int, words: str, kind: str) -> None:
        """Words behind a station, in the lane's direction."""
        direction = 1 if line.lane == "out" else -1
        x = self.layout.column(line.lane, station) + 8 * direction
        self.words.append(svg.text(x, self.layout.rows[line.number] + 4, words, kind, "start" if direction > 0 else "end"))

    def _at(self, line: Line, station: int, words: str) -> None:
        self.words.append(svg.text(self.layout.column(line.lane, station), self.layout.rows[line.number] + 4, words, "faint halo", "middle"))

    def waited(self, line: Line) -> None:
        self._at(line, SENDING_END, "waits a tick")

    def opened(self, line: Line) -> None:
        self._dots(line, RECEIVING_END)
        self._beside(line, RECEIVING_END, f"opens {line['serial']}", "faint halo")

    def cleared(self, line: Line) -> None:
        self._at(line, BUS, "halt cleared")

    def did(self, line: Line) -> None:
        forced = ", forced" if line["forced"] == "1" else ""
        self._across(line, f"{self.history.cause(line['control'])}{forced}")

    def settled(self, line: Line) -> None:
        self._across(line, "the stop is complete: every request is home")

    def note(self, line: Line) -> None:
        """A kind without a drawing of its own is written across."""
        self._across(line, line.text)

    def _across(self, line: Line, words: str) -> None:
        columns = self.layout.columns
        self._broken(columns[0], columns[-1], self.layout.rows[line.number], words, "note", "number halo")

    def _broken(self, begin: float, end: float, y: float, words: str, stroke: str, kind: str) -> None:
        """A line with words in its middle."""
        middle, half = (begin + end) / 2, len(words) * LETTER / 2 + 3
        direction = 1 if end > begin else -1
        self.parts.append(svg.line(begin, y, middle - half * direction, y, stroke))
        self.parts.append(svg.line(middle + half * direction, y, end, y, stroke))
        self.words.append(svg.text(middle, y + 4, words, kind, "middle"))

    def _dots(self, line: Line, station: int) -> None:
        """A dot on each track of the transfer's datagrams that stand at the station."""
        for way in self.history.of_transfer(line):
            if (way.lane, way.number, station) in self.layout.tracks:
                x, y = self.layout.track(way, station), self.layout.rows[line.number]
                self.parts.append(svg.element("circle", cx=x, cy=y, r=3, kind=f"f{self.colours[way.lane, way.number]}"))

    def nothing(self, line: Line) -> None:
        """The ways themselves show this line."""


CALLS: dict[str, Callable[[Drawing, Line], None]] = {
    "took": Drawing.nothing, "flying": Drawing.nothing, "landed": Drawing.nothing, "gave": Drawing.nothing, "refused": Drawing.refused,
    "made": Drawing.made, "waited": Drawing.waited, "posted": Drawing.posted, "failed": Drawing.lost, "cut": Drawing.lost,
    "dropped": Drawing.lost, "retried": Drawing.retried, "marked": Drawing.marked, "txhome": Drawing.txhome, "opened": Drawing.opened,
    "recalled": Drawing.recalled, "cleared": Drawing.cleared, "did": Drawing.did, "settled": Drawing.settled,
}


def picture(lines: list[Line], script: Script | None, first: int, last: int, title: str) -> str:
    """The picture of the lines from the first number to the last one."""
    history = History(lines, script)
    shown = [line for line in lines if first <= line.number <= last]
    if not shown:
        raise TraceError(f"no line of the trace is from {first} to {last}: it has the lines 2 to {len(lines) + 1}")
    layout = Layout(history, shown)
    drawing = Drawing(layout)
    parts = drawing.draw()
    height = layout.bottom + STRIP_HEIGHT + MARGIN
    ground = svg.rectangle(0, 0, layout.width, height, "paper")
    told = f"lines {layout.first} to {layout.last} of the trace · colours and numbers: datagrams · dashes: requests · crosses: losses"
    heads = [svg.text(MARGIN, 26, title, "title"), svg.text(MARGIN, 45, told, "faint")]
    light, dark = rules(LIGHT, 0.55, len(drawing.ways)), rules(DARK, 0.78, len(drawing.ways))
    style = f"\n{SHAPES}.way {{ stroke-width: {svg.number(layout.stroke)} }}\n{light}\n@media (prefers-color-scheme: dark) {{\n{dark}\n}}\n"
    below = strip(history.homes, layout)
    return svg.document(layout.width, height, title, describe(layout), style, [ground, *heads, *parts, *below])


def describe(layout: Layout) -> str:
    """The picture in words."""
    ways = layout.ways()
    lost = [way.told for way in ways if way.loss]
    return f"A sequence diagram of {len(layout.lines)} lines with {len(ways)} datagrams. " + ("; ".join(lost) or "No datagram is lost") + "."


def _lines(text: str) -> tuple[int, int]:
    first, _, last = text.partition("-")
    return int(first), int(last or first)


def arguments() -> argparse.ArgumentParser:
    parser = argparse.ArgumentParser(
        prog="picture",
        description=f"Draws a trace as an SVG: a sequence diagram, with the requests at home below. {NOT_PROVED}",
        epilog=EPILOG,
        formatter_class=argparse.RawDescriptionHelpFormatter,
    )
    parser.add_argument("trace", nargs="?", default="-", help="what usbnet serial or run printed; standard input without it")
    parser.add_argument("-o", "--output", metavar="FILE", help="the picture to write; standard output without it")
    parser.add_argument("--script", metavar="FILE", help="the script of the trace: it names the controls and the pools' sizes")
    parser.add_argument("--lines", type=_lines, metavar="A-B", default=(0, sys.maxsize), help="from this line of the text to that one")
    parser.add_argument("--title", help="the picture's title")
    return parser


def main() -> int:
    asked = arguments().parse_args()
    try:
        script = None
        if asked.script:
            with open(asked.script, encoding="ascii") as text:
                script = read_script(text)
        with sys.stdin if asked.trace == "-" else open(asked.trace, encoding="ascii") as stream:
            output = read_output(stream)
        drawn = picture(output.lines, script, *asked.lines, asked.title or (Path(asked.script).name if asked.script else "a trace"))
        if asked.output:
            with open(asked.output, "w", encoding="utf-8") as out:
                out.write(drawn)
        else:
            sys.stdout.write(drawn)
        return 0
    except (OSError, ValueError, TraceError) as trouble:
        print(f"picture: {trouble}", file=sys.stderr)
        return 2
