"""Where things stand in a picture: a row for each line of the trace, five columns for the stations, and tracks in them. Not proved."""
from __future__ import annotations

from dataclasses import dataclass, field

from .trace import LANES, Line
from .ways import BUS, RECEIVING_APP, RECEIVING_END, SENDING_APP, SENDING_END, History, Way

STATIONS = ("host's app", "host's end", "bus", "gadget's end", "gadget's app")
MARGIN = 12
TEXT_WIDTH = 226
ROW = 18
STRAND = 3.5
TRACK = 7
WIDEST_BAND = 120
WIDEST_STROKE = 1.8
APP_GAP, BUS_GAP = 104, 148
TOP = 62
HEADER = 26
HEADER_EVERY = 40


@dataclass
class Track:
    """A datagram's stay at a station, between two lines of the trace. Where it comes back, its track was kept for it."""

    way: Way
    station: int
    first: int
    last: int
    index: int = 0


@dataclass
class Layout:
    """The places of a picture of some lines of a trace."""

    history: History
    lines: list[Line]
    rows: dict[int, float] = field(default_factory=dict)
    """The middle of each line's row."""
    heights: dict[int, float] = field(default_factory=dict)
    headers: list[float] = field(default_factory=list)
    columns: list[float] = field(default_factory=list)
    top: float = 0
    bottom: float = 0
    tracks: dict[tuple[str, int, int], Track] = field(default_factory=dict)
    """By lane, datagram and station."""
    gaps: dict[tuple[str, int], float] = field(default_factory=dict)

    def __post_init__(self) -> None:
        self._place_rows()
        self._place_tracks()
        self._place_columns()

    @property
    def first(self) -> int:
        return self.lines[0].number

    @property
    def last(self) -> int:
        return self.lines[-1].number

    @property
    def width(self) -> float:
        return self.columns[-1] + APP_GAP / 2 + MARGIN

    def shows(self, number: int) -> bool:
        return number in self.rows

    def ways(self) -> list[Way]:
        """The datagrams that are under way in these lines, in their order."""
        there = {(lane, number) for lane, number, _ in self.tracks}
        return [way for key, way in self.history.ways.items() if key in there]

    @property
    def stroke(self) -> float:
        """How wide a way is drawn: thinner where tracks are near each other."""
        return min(WIDEST_STROKE, 0.6 * min(self.gaps.values()))

    def _place_rows(self) -> None:
        y = TOP
        for count, line in enumerate(self.lines):
            if count % HEADER_EVERY == 0:
                self.headers.append(y)
                y += HEADER
            strands = len(self.history.moved.get(line.number, ()))
            height = max(ROW, ROW - STRAND + STRAND * strands)
            self.rows[line.number] = y + height / 2
            self.heights[line.number] = height
            y += height
        self.top, self.bottom = TOP + HEADER, y

    def _place_tracks(self) -> None:
        """Gives the stays of a lane at a station tracks, so that those at the same time have different ones."""
        for way in self.history.ways.values():
            for move, following in zip(way.moves, [*way.moves[1:], None]):
                last = following.line if following else way.last_line
                last = self.last + 1 if last is None else last
                if move.station != RECEIVING_APP and move.line <= self.last and last >= self.first:
                    track = Track(way, move.station, move.line, last)
                    self.tracks.setdefault((way.lane, way.number, move.station), track).last = last
        for lane in LANES:
            for station in (SENDING_END, BUS, RECEIVING_END):
                stays = [track for track in self.tracks.values() if track.way.lane == lane and track.station == station]
                self.gaps[lane, station] = min(TRACK, WIDEST_BAND / max(1, _number_tracks(stays)))

    def _band(self, lane: str, column: int) -> float:
        """How wide the lane's tracks at a column are."""
        station = column if lane == "out" else RECEIVING_APP - column
        stays = [track.index + 1 for track in self.tracks.values() if track.way.lane == lane and track.station == station]
        return max(stays, default=0) * self.gaps.get((lane, station), 0)

    def _place_columns(self) -> None:
        x = MARGIN + TEXT_WIDTH + APP_GAP / 2
        self.columns = [x]
        for column, gap in enumerate((APP_GAP, BUS_GAP, BUS_GAP, APP_GAP), 1):
            # the outward tracks are left of a column's line, the inward ones right of it
            x += gap + self._band("in", column - 1) + self._band("out", column)
            self.columns.append(x)

    def column(self, lane: str, station: int) -> float:
        """The place of a lane's station."""
        return self.columns[station if lane == "out" else RECEIVING_APP - station]

    def track(self, way: Way, station: int) -> float:
        """The place of a datagram at a station: the app's line, or its track beside the line."""
        x = self.column(way.lane, station)
        if station in (SENDING_APP, RECEIVING_APP):
            return x
        offset = (self.tracks[way.lane, way.number, station].index + 1) * self.gaps[way.lane, station]
        return x - offset if way.lane == "out" else x + offset

    def strand(self, line: int, way: Way) -> float:
        """The height at which a line moves a datagram, among those that it moves."""
        moved = self.history.moved[line]
        return self.rows[line] + (moved.index(way) - (len(moved) - 1) / 2) * STRAND


def _number_tracks(stays: list[Track]) -> int:
    """Numbers the tracks, each stay taking the lowest one that is free, and answers how many there are."""
    free_from: list[int] = []
    for stay in sorted(stays, key=lambda stay: (stay.first, stay.way.number)):
        index = next((index for index, line in enumerate(free_from) if line <= stay.first), len(free_from))
        free_from[index : index + 1] = [stay.last]
        stay.index = index
    return len(free_from)
