"""The classes of transfers: the one place that lists them. Not proved.

A row says what names the class in a device's descriptors, and what its framing says of a transfer that filled its packets. Whether a
transfer is one of the class is not asked here: the program says that.
"""
from __future__ import annotations

import struct
from dataclasses import dataclass
from typing import Callable

# of an EEM packet's header: the bit of a command, where its code is (with the reserved bit above), which commands carry bytes, and what
# is a length
EEM_COMMAND, EEM_CODE_PLACE, EEM_CODE, EEM_ECHOES = 0x8000, 11, 15, (0, 1)
EEM_ECHO_LENGTH, EEM_FRAME_LENGTH = 0x07FF, 0x3FFF
# the bytes of an RNDIS message's header (MS-RNDIS 2.2.14)
RNDIS_HEADER = 44


@dataclass(frozen=True)
class WireClass:
    """A class as `usbnet decode` names it."""

    name: str
    interfaces: tuple[tuple[int, ...], ...]
    """The class, the subclass and, where it matters, the protocol of its control interface (CDC 1.2; EEM has this interface alone; RNDIS: two
    triples that its devices use, of no standard that was read for it)."""
    signature: bytes
    """How each transfer begins, where that is told."""
    is_whole: Callable[[bytes], "bool | None"]
    """Whether these bytes, which filled their packets, are a transfer as its own lengths have it; `None` where they don't tell."""


def _nothing_told(data: bytes) -> bool | None:
    """ECM's transfer is the bare frame: only the bus says where it ends."""
    return None


def _packets_end(data: bytes) -> bool | None:
    """Whether the last of EEM's packets ends with the bytes (EEM 1.0, 5.1)."""
    place = 0
    while place + 2 <= len(data):
        header = struct.unpack_from("<H", data, place)[0]
        if not header & EEM_COMMAND:
            place += header & EEM_FRAME_LENGTH
        elif header >> EEM_CODE_PLACE & EEM_CODE in EEM_ECHOES:
            place += header & EEM_ECHO_LENGTH
        place += 2
    return place == len(data)


def _block_ends(width: int) -> Callable[[bytes], "bool | None"]:
    """Whether the block's length is reached (NCM 1.0, 3.2.1); a length of 0 says that a short packet tells."""

    def ends(data: bytes) -> bool | None:
        if len(data) < 8 + width:
            return None
        told = int.from_bytes(data[8 : 8 + width], "little")
        return len(data) >= told if told else None

    return ends


def _messages_end(data: bytes) -> bool | None:
    """Whether the last of RNDIS's messages ends with the bytes, or one byte before (MS-RNDIS 2.2.14); a length that no message has tells nothing."""
    place = 0
    while place + 8 <= len(data):
        length = struct.unpack_from("<I", data, place + 4)[0]
        if length < RNDIS_HEADER:
            return None
        place += length
    return place == len(data) or 0 < place == len(data) - 1


CLASSES = [
    WireClass("ecm", ((2, 0x06),), b"", _nothing_told),
    WireClass("eem", ((2, 0x0C),), b"", _packets_end),
    WireClass("ncm16", ((2, 0x0D),), b"NCMH", _block_ends(2)),
    WireClass("ncm32", ((2, 0x0D),), b"ncmh", _block_ends(4)),
    WireClass("rndis", ((2, 0x02, 0xFF), (0xE0, 0x01, 0x03)), b"", _messages_end),
]
NAMES = [wire.name for wire in CLASSES]
# network functions that the program doesn't decode, so that they are named rather than passed over
OTHER_FUNCTIONS = {(2, 0x0E, 0x00): "MBIM"}


def class_named(name: str) -> WireClass:
    return CLASSES[NAMES.index(name)]


def classes_of(interface: tuple[int, int, int]) -> list[WireClass]:
    """The classes that an interface of this class, subclass and protocol may speak."""
    return [wire for wire in CLASSES if any(interface[: len(known)] == known for known in wire.interfaces)]


def by_signature(choices: list[WireClass], transfer: bytes) -> WireClass | None:
    """The one of the classes whose signature begins the transfer."""
    return next((wire for wire in choices if wire.signature and transfer.startswith(wire.signature)), None)
