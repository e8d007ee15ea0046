"""Capture files: pcap and pcapng are read, pcapng is written. Not proved.

Python's dpkt has both formats, but its reader of pcapng knows one interface, its reader of pcap forgets how long a packet was before
the capture cut it, and it takes most of a millisecond for a block. So the few blocks that are needed stand here.
"""
from __future__ import annotations

import gzip
import io
import struct
from dataclasses import dataclass
from typing import BinaryIO, Callable, Iterator

ETHERNET = 1
USBMON = 189
USBMON_MAPPED = 220
USBPCAP = 249

NANOSECONDS = 10**9
# the first four bytes of a pcap: the byte order, and the ticks of a second
PCAP_MAGIC = {
    bytes.fromhex("d4c3b2a1"): ("<", 10**6),
    bytes.fromhex("a1b2c3d4"): (">", 10**6),
    bytes.fromhex("4d3cb2a1"): ("<", 10**9),
    bytes.fromhex("a1b23c4d"): (">", 10**9),
}
SECTION, INTERFACE, OLD_PACKET, SIMPLE_PACKET, ENHANCED_PACKET = 0x0A0D0D0A, 1, 2, 3, 6
OPTION_END, OPTION_COMMENT = 0, 1
SECTION_APPLICATION = 4
INTERFACE_NAME, INTERFACE_DESCRIPTION, INTERFACE_RESOLUTION, INTERFACE_OFFSET = 2, 3, 9, 14
PACKET_FLAGS = 2
INBOUND, OUTBOUND = 1, 2
# no capture program writes larger blocks: a length above this is a damaged file
MOST_BLOCK = 1 << 28


class CaptureError(Exception):
    """The bytes are no capture, or not one that can be read on; the text says where."""


@dataclass(frozen=True)
class Interface:
    """Where packets were captured: their link type, a name, and how their times count."""

    link_type: int
    name: str = ""
    description: str = ""
    ticks: int = 10**6
    offset: int = 0


@dataclass(frozen=True)
class Packet:
    """A packet: its number in the file from 1 on, its time in nanoseconds, its bytes as far as captured, and its whole length."""

    number: int
    time: int
    interface: Interface
    data: bytes
    length: int
    byte_order: str
    direction: int = 0


def read_capture(stream: io.BufferedReader, warn: Callable[[str], None]) -> Iterator[Packet]:
    """The packets of a pcap or pcapng, which may be compressed by gzip. A file that ends within a packet is told to `warn`."""
    if stream.peek(2)[:2] == b"\x1f\x8b":
        stream = gzip.GzipFile(fileobj=stream)
    magic = stream.read(4)
    if magic in PCAP_MAGIC:
        return _read_pcap(stream, *PCAP_MAGIC[magic], warn)
    if magic == struct.pack("<I", SECTION):
        return _read_pcapng(stream, warn)
    raise CaptureError(f"neither a pcap nor a pcapng: it begins with {magic.hex() or 'nothing'}")


def _read_pcap(stream: BinaryIO, order: str, ticks: int, warn: Callable[[str], None]) -> Iterator[Packet]:
    head = stream.read(20)
    if len(head) < 20:
        raise CaptureError("the file ends within its header, at byte 4")
    interface = Interface(struct.unpack(order + "HHiIII", head)[5] & 0xFFFF, ticks=ticks)
    number, place = 1, 24
    while record := stream.read(16):
        if len(record) < 16:
            return warn(f"the file ends within packet {number}, at byte {place}")
        seconds, part, captured, length = struct.unpack(order + "IIII", record)
        if captured > MOST_BLOCK:
            raise CaptureError(f"packet {number}, at byte {place}, says that it has {captured} bytes")
        data = stream.read(captured)
        if len(data) < captured:
            return warn(f"the file ends within packet {number}, at byte {place}")
        yield Packet(number, seconds * NANOSECONDS + part * (NANOSECONDS // ticks), interface, data, length, order)
        number, place = number + 1, place + 16 + captured


def _read_pcapng(stream: BinaryIO, warn: Callable[[str], None]) -> Iterator[Packet]:
    """The packets of a pcapng, whose first four bytes were read."""
    head, place, number, order = struct.pack("<I", SECTION), 0, 1, "<"
    interfaces: list[Interface] = []
    while True:
        head += stream.read(12 - len(head))
        if not head:
            return
        if len(head) < 12:
            return warn(f"the file ends within a block, at byte {place}")
        if head[:4] == struct.pack("<I", SECTION):
            order, interfaces = _order_of(head[8:12], place), []
        kind, size = struct.unpack(order + "II", head[:8])
        if size < 12 or size % 4 or size > MOST_BLOCK:
            raise CaptureError(f"the block at byte {place} says that it has {size} bytes")
        rest = stream.read(size - 12)
        if len(rest) < size - 12:
            return warn(f"the file ends within packet {number} or a block before it, at byte {place}")
        try:
            body = (head[8:] + rest)[: size - 12]
            if kind == INTERFACE:
                interfaces.append(_interface_of(body, order))
            elif kind in READERS:
                yield READERS[kind](body, order, interfaces, number)
                number += 1
        except (struct.error, IndexError):
            raise CaptureError(f"the block at byte {place}, of type {kind}, can't be read") from None
        head, place = b"", place + size


def _order_of(magic: bytes, place: int) -> str:
    orders = {bytes.fromhex("4d3c2b1a"): "<", bytes.fromhex("1a2b3c4d"): ">"}
    if magic not in orders:
        raise CaptureError(f"the section at byte {place} has no byte order: {magic.hex()}")
    return orders[magic]


def _options_of(data: bytes, order: str) -> dict[int, bytes]:
    """The options of a block, the first of each code."""
    found: dict[int, bytes] = {}
    while len(data) >= 4:
        code, size = struct.unpack(order + "HH", data[:4])
        if code == OPTION_END:
            break
        found.setdefault(code, data[4 : 4 + size])
        data = data[4 + size + -size % 4 :]
    return found


def _interface_of(body: bytes, order: str) -> Interface:
    link_type = struct.unpack(order + "H", body[:2])[0]
    options = _options_of(body[8:], order)
    resolution = options.get(INTERFACE_RESOLUTION, b"\x06")[0]
    ticks = 2 ** (resolution & 0x7F) if resolution & 0x80 else 10**resolution
    offset = struct.unpack(order + "q", options[INTERFACE_OFFSET])[0] if INTERFACE_OFFSET in options else 0
    name, description = (options.get(code, b"").decode("utf-8", "replace") for code in (INTERFACE_NAME, INTERFACE_DESCRIPTION))
    return Interface(link_type, name, description, ticks, offset)


def _enhanced(body: bytes, order: str, interfaces: list[Interface], number: int) -> Packet:
    index, high, low, captured, length = struct.unpack(order + "IIIII", body[:20])
    return _packet(number, interfaces[index], high << 32 | low, body[20:], captured, length, order)


def _old(body: bytes, order: str, interfaces: list[Interface], number: int) -> Packet:
    index, _, high, low, captured, length = struct.unpack(order + "HHIIII", body[:20])
    return _packet(number, interfaces[index], high << 32 | low, body[20:], captured, length, order)


def _simple(body: bytes, order: str, interfaces: list[Interface], number: int) -> Packet:
    length = struct.unpack(order + "I", body[:4])[0]
    return _packet(number, interfaces[0], 0, body[4:], min(length, len(body) - 4), length, order)


def _packet(number: int, interface: Interface, ticks: int, rest: bytes, captured: int, length: int, order: str) -> Packet:
    if captured > len(rest):
        raise IndexError
    flags = _options_of(rest[captured + -captured % 4 :], order).get(PACKET_FLAGS, b"")
    direction = struct.unpack(order + "I", flags)[0] & 3 if len(flags) == 4 else 0
    time = interface.offset * NANOSECONDS + ticks * NANOSECONDS // interface.ticks
    return Packet(number, time, interface, rest[:captured], length, order, direction)


READERS = {ENHANCED_PACKET: _enhanced, OLD_PACKET: _old, SIMPLE_PACKET: _simple}


class Writer:
    """Writes a pcapng of little-endian blocks, with times in nanoseconds."""

    def __init__(self, out: BinaryIO, interfaces: list[Interface], application: str):
        self.out = out
        self._block(SECTION, struct.pack("<IHHq", 0x1A2B3C4D, 1, 0, -1), [(SECTION_APPLICATION, application.encode())])
        for interface in interfaces:
            options = [(INTERFACE_NAME, interface.name.encode()), (INTERFACE_DESCRIPTION, interface.description.encode())]
            self._block(INTERFACE, struct.pack("<HHI", interface.link_type, 0, 0), options + [(INTERFACE_RESOLUTION, b"\x09")])

    def packet(self, interface: int, time: int, data: bytes, comment: str = "", direction: int = 0) -> None:
        """Writes a whole packet of the interface with this index, its time in nanoseconds."""
        options = [(OPTION_COMMENT, comment.encode()), (PACKET_FLAGS, struct.pack("<I", direction) if direction else b"")]
        head = struct.pack("<IIIII", interface, time >> 32, time & 0xFFFFFFFF, len(data), len(data))
        self._block(ENHANCED_PACKET, head + data + bytes(-len(data) % 4), options)

    def _block(self, kind: int, body: bytes, options: list[tuple[int, bytes]]) -> None:
        """Writes a block with those of the options that aren't empty."""
        told = [struct.pack("<HH", code, len(value)) + value + bytes(-len(value) % 4) for code, value in options if value]
        body += b"".join(told) + (bytes(4) if told else b"")
        size = len(body) + 12
        self.out.write(struct.pack("<II", kind, size) + body + struct.pack("<I", size))
