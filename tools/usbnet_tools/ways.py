"""What a trace says of each datagram's way and of the requests at home. Not proved.

A lane has five stations: the sending app, the sending end, the bus, the receiving end, the receiving app. They are numbered from 0 on in
the lane's direction.
"""
from __future__ import annotations

from collections import Counter
from dataclasses import dataclass, field

from .script import Script
from .trace import LANES, Line, TraceError

SENDING_APP, SENDING_END, BUS, RECEIVING_END, RECEIVING_APP = range(5)
POOLS = ("tx out", "rx out", "tx in", "rx in")


@dataclass(frozen=True)
class Move:
    """At this line of the trace a datagram reaches a station."""

    line: int
    station: int


@dataclass
class Way:
    """A datagram's way: its moves in order, and how it was lost."""

    lane: str
    number: int
    sender: int
    moves: list[Move]
    loss: tuple[int, str] | None = None
    """The line, and the cause in words."""
    transfer: int | None = None

    @property
    def station(self) -> int:
        return self.moves[-1].station

    @property
    def last_line(self) -> int | None:
        """The line at which the way ends; `None` where the trace ends first."""
        if self.loss:
            return self.loss[0]
        return self.moves[-1].line if self.station == RECEIVING_APP else None

    @property
    def told(self) -> str:
        """The way in words."""
        went = f"transfer {self.transfer}" if self.transfer is not None else "no transfer"
        flights = sum(move.station == BUS for move in self.moves)
        went += f", {flights} flights" if flights > 1 else ""
        end = f"lost at line {self.loss[0]}, {self.loss[1]}" if self.loss else "delivered" if self.station == RECEIVING_APP else "under way"
        return f"datagram {self.number} {self.lane}, of sender {self.sender}: {went}; {end}"


@dataclass
class Homes:
    """For each pool, at each line: how many requests are away from home."""

    away: list[tuple[int, tuple[int, ...]]] = field(default_factory=list)
    """A line's number, and the counts behind it in the order of POOLS."""
    sizes: dict[str, int] = field(default_factory=dict)
    """The pools' sizes, where they are known."""

    def size(self, pool: str) -> int:
        """The pool's size, or else the most of its requests that were ever away."""
        index = POOLS.index(pool)
        return self.sizes.get(pool) or max((counts[index] for _, counts in self.away), default=0)


class History:
    """Follows the lines of a trace: the ways of its datagrams, each transfer's datagrams, and the requests."""

    def __init__(self, lines: list[Line], script: Script | None):
        self.script = script
        self.ways: dict[tuple[str, int], Way] = {}
        self.spans: dict[tuple[str, int], range] = {}
        self.homes = Homes(sizes=dict(zip(POOLS, script.requests)) if script else {})
        self.away: Counter = Counter()
        self.flying: set[tuple[str, int]] = set()
        self.claims = {lane: False for lane in LANES}
        self.taken: Counter = Counter()
        self.moved: dict[int, list[Way]] = {}
        """The datagrams that a line moves or loses."""
        for line in lines:
            call = CALLS.get(line.kind)
            if call:
                call(self, line)
            self.homes.away.append((line.number, tuple(self.away[pool] for pool in POOLS)))

    def cause(self, control: int) -> str:
        """The name of a control, as far as a script tells it."""
        known = self.script and control < len(self.script.controls)
        return self.script.controls[control] if known else f"control {control}"

    def of_transfer(self, line: Line) -> list[Way]:
        """The datagrams of the transfer that the line speaks of."""
        span = self.spans.get((line.lane, line["serial"]))
        if span is None:
            raise TraceError(f"line {line.number}: {line.text!r} is of a transfer that was never made")
        return [self._way(line, number) for number in span]

    def _way(self, line: Line, number: int) -> Way:
        if (line.lane, number) not in self.ways:
            raise TraceError(f"line {line.number}: {line.text!r} is of datagram {number}, which was never accepted")
        return self.ways[line.lane, number]

    def _move(self, line: Line, ways: list[Way], station: int) -> None:
        for way in ways:
            way.moves.append(Move(line.number, station))
        self.moved[line.number] = ways

    def _lose(self, line: Line, ways: list[Way], cause: str) -> None:
        for way in ways:
            way.loss = (line.number, cause)
        self.moved[line.number] = ways

    def _claim(self, lane: str, claims: bool) -> None:
        """The host's open block holds a transmit request from its first datagram on."""
        if lane == "out" and self.claims[lane] != claims:
            self.away[f"tx {lane}"] += 1 if claims else -1
            self.claims[lane] = claims

    def took(self, line: Line) -> None:
        number = self.taken[line.lane]
        self.taken[line.lane] += 1
        way = Way(line.lane, number, line["sender"], [Move(line.number, SENDING_END)])
        self.ways[line.lane, number] = way
        self.moved[line.number] = [way]
        self._claim(line.lane, True)

    def made(self, line: Line) -> None:
        span = range(line["from"], line["to"])
        self.spans[line.lane, line["serial"]] = span
        for number in span:
            self._way(line, number).transfer = line["serial"]
        self._claim(line.lane, False)
        self.away[f"tx {line.lane}"] += 1

    def posted(self, line: Line) -> None:
        self.away[f"rx {line.lane}"] += 1

    def recalled(self, line: Line) -> None:
        self.away[f"rx {line.lane}"] -= 1

    def took_off(self, line: Line) -> None:
        self.flying.add((line.lane, line["serial"]))
        self._move(line, self.of_transfer(line), BUS)

    def landed(self, line: Line) -> None:
        self.flying.discard((line.lane, line["serial"]))
        self._move(line, self.of_transfer(line), RECEIVING_END)

    def retried(self, line: Line) -> None:
        """An attempt failed: the transfer waits again at the sending end, and its receive request comes home."""
        self.flying.discard((line.lane, line["serial"]))
        self.away[f"rx {line.lane}"] -= 1
        self._move(line, self.of_transfer(line), SENDING_END)

    def ended(self, line: Line) -> None:
        """A transfer failed or was cut: one that flew gives its receive request back."""
        cause = f"failed: {line['fault']}" if line.kind == "failed" else f"cut by {self.cause(line['control'])}"
        self._lose(line, self.of_transfer(line), cause)
        if (line.lane, line["serial"]) in self.flying:
            self.flying.discard((line.lane, line["serial"]))
            self.away[f"rx {line.lane}"] -= 1

    def dropped(self, line: Line) -> None:
        ways = [self._way(line, number) for number in range(line["from"], line["to"])]
        self._lose(line, ways, f"dropped by {self.cause(line['control'])}")
        self._claim(line.lane, False)

    def txhome(self, line: Line) -> None:
        self.away[f"tx {line.lane}"] -= 1

    def gave(self, line: Line) -> None:
        way = self._way(line, line["datagram"])
        self._move(line, [way], RECEIVING_APP)
        span = self.spans.get((line.lane, way.transfer), range(0))
        if all(self.ways[line.lane, number].station == RECEIVING_APP for number in span):
            self.away[f"rx {line.lane}"] -= 1

    def settled(self, line: Line) -> None:
        self.homes.sizes = self.homes.sizes or dict(zip(POOLS, (line[name] for name in ("tx_out", "rx_out", "tx_in", "rx_in"))))


# what each kind of line changes; a kind that isn't here changes no way and no request
CALLS = {
    "took": History.took, "made": History.made, "posted": History.posted, "recalled": History.recalled, "flying": History.took_off,
    "landed": History.landed, "failed": History.ended, "retried": History.retried, "cut": History.ended, "dropped": History.dropped,
    "txhome": History.txhome, "gave": History.gave, "settled": History.settled,
}
