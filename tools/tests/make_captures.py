#!/usr/bin/env python3
"""Makes the captures in stored/ that were written by hand: each is a list of what was on the bus, with the faults that the tests look for.

    make_captures.py            writes them
The tests compare the stored ones with these.
"""
from __future__ import annotations

import io
import struct
from pathlib import Path

STORED = Path(__file__).resolve().parent / "stored"
CONTROL, BULK = 2, 3
DESCRIPTOR_REQUEST = bytes.fromhex("8006000200000001")
SET_CONFIGURATION = bytes.fromhex("0009010000000000")
SET_NTB32 = bytes.fromhex("2184010000000000")
ZERO_PACKET = 0x40
BEGIN = 1_700_000_000


def frame(index: int, length: int) -> bytes:
    return bytes.fromhex("0200000000020200000000010800") + bytes((index + place) % 256 for place in range(length - 14))


def descriptors(subclass: int, out: int, back: int) -> bytes:
    """A configuration with one CDC function: EEM in one interface, else a control interface, and data in setting 1 of the next."""
    endpoints = bytes([7, 5, out, 2, 0, 2, 0, 7, 5, back, 2, 0, 2, 0])
    if subclass == 0x0C:
        body = bytes([9, 4, 0, 0, 2, 2, subclass, 7, 0]) + endpoints
    else:
        union = bytes([5, 0x24, 6, 0, 1])
        body = bytes([9, 4, 0, 0, 1, 2, subclass, 0xFF if subclass == 0x02 else 0, 0]) + union + bytes([7, 5, 0x83, 3, 16, 0, 9])
        body += bytes([9, 4, 1, 0, 0, 10, 0, 0, 0, 9, 4, 1, 1, 2, 10, 0, 0, 0]) + endpoints
    return bytes([9, 2]) + struct.pack("<H", 9 + len(body)) + bytes([2, 1, 0, 0x80, 50]) + body


def eem(*frames: bytes, sentinel: str = "deadbeef") -> bytes:
    return b"".join(struct.pack("<H", len(one) + 4) + one + bytes.fromhex(sentinel) for one in frames)


def rndis(*frames: bytes) -> bytes:
    return b"".join(struct.pack("<IIII", 1, len(one) + 44, 36, len(one)) + bytes(28) + one for one in frames)


def ncm32(*frames: bytes, serial: int = 0, past: int = 0, size: int = 0) -> bytes:
    """A block with its table at the end; `past` is added to the last frame's length, `size` is the block's where it is to be filled."""
    places, place = [], 16
    for one in frames:
        places.append((place, len(one)))
        place += len(one) + -len(one) % 4
    table = 16 + 8 * (len(frames) + 1)
    place = size - table if size else place
    places[-1] = (places[-1][0], places[-1][1] + past)
    head = b"ncmh" + struct.pack("<HHII", 16, serial, place + table, place)
    body = b"".join(one + bytes(-len(one) % 4) for one in frames).ljust(place - 16, b"\0")
    return head + body + b"ncm0" + struct.pack("<HHII", table, 0, 0, 0) + b"".join(struct.pack("<II", *pair) for pair in places) + bytes(8)


class Pcap:
    """A pcap in memory; a packet is a millisecond after the one before."""

    def __init__(self, link_type: int, order: str, snap: int = 65535):
        self.out, self.order, self.snap, self.count = io.BytesIO(), order, snap, 0
        self.out.write(struct.pack(order + "IHHiIII", 0xA1B2C3D4, 2, 4, 0, 0, snap, link_type))

    def packet(self, data: bytes) -> None:
        kept = data[: self.snap]
        self.out.write(struct.pack(self.order + "IIII", BEGIN, 1000 * self.count, len(kept), len(data)) + kept)
        self.count += 1


class Usbmon(Pcap):
    """A pcap of usbmon, of link type 189 or 220, of device 1.7."""

    request = 0xFFFF000000000100

    def event(self, event: str, kind: int, end: int, status: int, length: int, data: bytes | None, setup: bytes = b"", flags: int = 0) -> None:
        without = 0 if data is not None else ord("<" if end & 0x80 else ">")
        head = struct.pack(
            self.order + "QBBBBHBBqiiII8s", self.request, ord(event), kind, end, 7, 1, 0 if setup else ord("-"), without,
            BEGIN, 1000 * self.count, status, length, len(data or b""), setup,
        )
        mapped = struct.pack(self.order + "iiII", 0, 0, flags, 0) if self.link_type == 220 else b""
        self.packet(head + mapped + (data or b""))

    def __init__(self, link_type: int, order: str, snap: int = 65535):
        super().__init__(link_type, order, snap)
        self.link_type = link_type

    def control(self, setup: bytes, answer: bytes | None) -> None:
        end = setup[0] & 0x80
        self.event("S", CONTROL, end, -115, struct.unpack("<H", setup[6:])[0], None, setup)
        self.event("C", CONTROL, end, 0, len(answer or b""), answer)
        self.request += 0x100

    def out_data(self, end: int, data: bytes, status: int = 0, flags: int = 0, seen: bool = True) -> None:
        if seen:
            self.event("S", BULK, end, -115, len(data), data, flags=flags)
        self.event("C", BULK, end, status, len(data) if status == 0 else 0, None)
        self.request += 0x100

    def in_data(self, end: int, data: bytes, status: int = 0, asked: int = 16384) -> None:
        self.event("S", BULK, end, -115, asked, None)
        self.event("C", BULK, end, status, len(data), data)
        self.request += 0x100


class Usbpcap(Pcap):
    """A pcap of USBPcap, of device 2.3."""

    request = 0xFFFFE00100000000

    def event(self, kind: int, end: int, is_completion: bool, data: bytes, status: int = 0, stage: int | None = None) -> None:
        size = 27 if stage is None else 28
        head = struct.pack("<HQIHBHHBBI", size, self.request, status, 9, is_completion, 2, 3, end, kind, len(data))
        self.packet(head + (b"" if stage is None else bytes([stage])) + data)

    def control(self, setup: bytes, answer: bytes) -> None:
        end = setup[0] & 0x80
        self.event(CONTROL, end, False, setup, stage=0)
        self.event(CONTROL, end, True, answer, stage=3)
        self.request += 0x10

    def bulk(self, end: int, data: bytes, status: int = 0) -> None:
        is_inward = bool(end & 0x80)
        self.event(BULK, end, False, b"" if is_inward else data)
        self.event(BULK, end, True, data if is_inward else b"", status)
        self.request += 0x10


def eem_189() -> bytes:
    """EEM by usbmon of old, in big-endian order, cut at 700 bytes a packet."""
    made = Usbmon(189, ">", snap=700)
    made.out_data(0x02, b"", seen=False)  # packet 1: begun before the capture
    made.control(DESCRIPTOR_REQUEST, descriptors(0x0C, 0x02, 0x81))
    made.out_data(0x02, eem(frame(1, 60), frame(2, 80)))  # 4
    made.out_data(0x02, eem(frame(3, 60), sentinel="deadbee0"))  # 6: bad-sentinel at 0
    made.out_data(0x02, eem(frame(4, 60)) + b"\x40\x00\x01")  # 8: truncated at 66
    long = eem(frame(5, 600))
    made.out_data(0x02, long[:512])  # 10: goes on, as its packet's length says
    made.out_data(0x02, long[512:])
    made.out_data(0x02, eem(frame(6, 506)))  # 14: fills a packet
    made.out_data(0x02, b"")  # 16: the empty packet behind it
    made.in_data(0x81, eem(frame(7, 60)))
    made.in_data(0x81, eem(frame(8, 900)))  # packet 21: cut by the capture
    made.in_data(0x81, b"", status=-71)  # 23
    made.in_data(0x81, b"", status=-2)  # 25: withdrawn
    return made.out.getvalue()


def ecm_usbpcap() -> bytes:
    """ECM by USBPcap."""
    made = Usbpcap(249, "<")
    made.control(DESCRIPTOR_REQUEST, descriptors(0x06, 0x01, 0x82))
    made.control(SET_CONFIGURATION, b"")
    made.bulk(0x01, frame(1, 60))  # 5
    made.bulk(0x01, frame(2, 60)[:13])  # 7: short-frame at 0
    made.bulk(0x82, frame(3, 512))  # 10
    made.bulk(0x82, b"")  # 12: the empty packet behind it
    made.bulk(0x82, frame(4, 100))  # 14
    made.bulk(0x01, frame(5, 60), status=0xC0000004)  # 15: a stall
    made.bulk(0x82, b"", status=0xC0010000)  # 18: cancelled
    return made.out.getvalue()


def ncm32_220() -> bytes:
    """NCM with 32-bit blocks by usbmon: blocks of one request and of several."""
    made = Usbmon(220, "<")
    made.control(DESCRIPTOR_REQUEST, descriptors(0x0D, 0x02, 0x81))
    made.control(SET_NTB32, None)
    made.out_data(0x02, ncm32(frame(1, 60), frame(2, 100)))  # 5
    long = ncm32(frame(3, 700), frame(4, 600), serial=1)
    made.out_data(0x02, long[:1024])  # 7: goes on in 9
    made.out_data(0x02, long[1024:])
    made.out_data(0x02, ncm32(frame(5, 200), serial=2, size=512))  # 11: a whole block that fills its packet
    made.out_data(0x02, ncm32(frame(6, 60), serial=3, past=500))  # 13: bad-entry
    made.in_data(0x81, ncm32(frame(7, 300), size=512), asked=512)  # 16
    made.in_data(0x81, ncm32(frame(8, 60), serial=1))  # 18
    return made.out.getvalue()


def no_descriptors() -> bytes:
    """ECM whose device was plugged in before the capture; a frame that fills its packet is followed by the empty one."""
    made = Usbmon(220, "<")
    made.out_data(0x03, frame(1, 60))
    made.out_data(0x03, frame(2, 512), flags=ZERO_PACKET)
    made.in_data(0x84, frame(3, 70), asked=2048)
    made.in_data(0x84, frame(4, 512), asked=2048)
    return made.out.getvalue()


CAPTURES = {
    "eem-189.pcap": eem_189, "ecm-usbpcap.pcap": ecm_usbpcap, "ncm32-220.pcap": ncm32_220, "no-descriptors-220.pcap": no_descriptors,
}


def main() -> None:
    for name, make in CAPTURES.items():
        (STORED / name).write_bytes(make())


if __name__ == "__main__":
    main()
