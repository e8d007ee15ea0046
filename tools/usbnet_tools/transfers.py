"""From USB requests to transfers. Not proved.

A transfer ends with a packet that isn't full, which may be empty (USB 2.0, 5.8.3). A request of the host mostly has a whole transfer;
where one ends with a full packet, what the capture tells, and else the class's framing, says whether the next goes on with it.
"""
from __future__ import annotations

from dataclasses import dataclass, field
from enum import Enum
from typing import Iterable

from .classes import WireClass
from .descriptors import Endpoint
from .usb_records import Record


class End(Enum):
    """What a capture tells of the end of a request's bytes."""

    SHORT = "a packet that isn't full, or the empty one that the host was to send, ends the transfer"
    FULL = "the last packet is full, and no empty one follows with this request"
    UNTOLD = "the last packet is full, and the capture doesn't tell whether an empty one follows"


@dataclass(frozen=True)
class Piece:
    """What one request carried, and the packet of the capture that has its bytes."""

    packet: int
    time: int
    data: bytes
    end: End
    problem: str = ""


@dataclass
class Transfer:
    """A transfer of an endpoint: the bytes of one piece or several."""

    pieces: list[Piece]
    problem: str = ""
    """What the capture says against it, empty where its bytes are all there."""

    @property
    def data(self) -> bytes:
        return b"".join(piece.data for piece in self.pieces)

    @property
    def packet(self) -> int:
        return self.pieces[0].packet

    @property
    def time(self) -> int:
        return self.pieces[0].time

    def where(self, place: int) -> tuple[int, int]:
        """The packet that has the byte at this place, and the byte's place in that packet's data."""
        for piece in self.pieces[:-1]:
            if place < len(piece.data):
                return piece.packet, place
            place -= len(piece.data)
        return self.pieces[-1].packet, place


@dataclass
class Requests:
    """The requests of one endpoint, from their records in order."""

    endpoint: Endpoint
    request_size: int | None = None
    """Bytes that an inward request asks for, where the capture doesn't tell."""
    begun: dict[tuple[int, int, int], Record] = field(default_factory=dict)
    pieces: list[Piece] = field(default_factory=list)
    withdrawn: int = 0
    """Requests that the host took back before they had bytes."""
    unseen: int = 0
    """Outward requests whose submission, with the bytes, isn't in the capture."""

    def add(self, record: Record) -> None:
        if not record.is_completion:
            self.begun[record.key] = record
            return
        begun = self.begun.pop(record.key, None)
        if record.is_withdrawn and not record.data:
            self.withdrawn += 1
        elif record.endpoint & 0x80:
            self.pieces.append(self._inward(begun, record))
        elif begun is None:
            self.unseen += 1
        else:
            self.pieces.append(self._outward(begun, record))

    def close(self) -> list[Piece]:
        """The pieces, with those of outward requests that the capture doesn't see completed."""
        self.pieces += [self._outward(begun, None) for begun in self.begun.values() if not begun.endpoint & 0x80]
        self.begun = {}
        return self.pieces

    def _inward(self, begun: Record | None, record: Record) -> Piece:
        asked = begun.length if begun and begun.length is not None else self.request_size
        end = End.UNTOLD if asked is None else End.FULL if asked == record.length else End.SHORT
        return Piece(record.packet, record.time, record.data, end if self._fills(record) else End.SHORT, _problem(record, record))

    def _outward(self, begun: Record, record: Record | None) -> Piece:
        end = {None: End.UNTOLD, False: End.FULL, True: End.SHORT}[begun.ends_short]
        return Piece(begun.packet, begun.time, begun.data, end if self._fills(begun) else End.SHORT, _problem(begun, record))

    def _fills(self, record: Record) -> bool:
        """Whether the bytes are full packets alone."""
        return bool(record.length) and record.length % self.endpoint.packet == 0


def _problem(carrier: Record, completion: Record | None) -> str:
    if completion is not None and completion.failure:
        return f"failed: {completion.failure}"
    if carrier.is_cut:
        return f"capture cut: {len(carrier.data)} of {carrier.length} bytes"
    return ""


def _goes_on(wire: WireClass, pieces: list[Piece], following: Piece | None) -> bool:
    """Whether the transfer of these pieces goes on with the following one."""
    last = pieces[-1]
    if last.end is End.SHORT or last.problem or following is None:
        return False
    if not following.data and not following.problem:
        return True
    is_whole = wire.is_whole(b"".join(piece.data for piece in pieces))
    if last.end is End.FULL:
        return not is_whole
    return is_whole is False and not (wire.signature and following.data.startswith(wire.signature))


def assemble(wire: WireClass, pieces: Iterable[Piece]) -> list[Transfer]:
    """The transfers that the pieces of an endpoint make."""
    found: list[Transfer] = []
    open_pieces: list[Piece] = []
    for piece in pieces:
        if open_pieces and not _goes_on(wire, open_pieces, piece):
            found.append(_closed(open_pieces))
            open_pieces = []
        open_pieces.append(piece)
    return found + ([_closed(open_pieces)] if open_pieces else [])


def _closed(pieces: list[Piece]) -> Transfer:
    return Transfer(pieces, next((piece.problem for piece in pieces if piece.problem), ""))
