"""Captures are read and written as the formats have it; Wireshark's and dpkt's readers agree."""
from __future__ import annotations

import gzip
import io
import struct
import unittest

import common
from usbnet_tools.capture_file import ETHERNET, USBMON_MAPPED, CaptureError, Interface, Writer, read_capture

try:
    import dpkt
except ImportError:
    dpkt = None

FRAMES = [bytes([index]) * (14 + index) for index in range(6)]


def written() -> bytes:
    """A capture of two interfaces with the frames by turns, a second apart."""
    out = io.BytesIO()
    writer = Writer(out, [Interface(ETHERNET, "out"), Interface(ETHERNET, "in", "to the host")], "test")
    for index, frame in enumerate(FRAMES):
        writer.packet(index % 2, index * 10**9 + 7, frame, f"comment {index}", 1 + index % 2)
    return out.getvalue()


def read(data: bytes) -> tuple[list, list[str]]:
    told: list[str] = []
    return list(read_capture(io.BufferedReader(io.BytesIO(data)), told.append)), told


class Pcapng(common.InRoom):
    def test_what_is_written_is_read(self) -> None:
        packets, told = read(written())
        self.assertEqual([packet.data for packet in packets], FRAMES)
        self.assertEqual([packet.time for packet in packets], [index * 10**9 + 7 for index in range(6)])
        self.assertEqual([packet.interface.name for packet in packets], ["out", "in"] * 3)
        self.assertEqual([packet.direction for packet in packets], [1, 2] * 3)
        self.assertEqual(told, [])

    def test_a_file_that_ends_early_gives_what_is_whole(self) -> None:
        whole = written()
        packets, told = read(whole[:-10])
        self.assertEqual(len(packets), 5)
        self.assertRegex(told[0], r"^the file ends within packet 6 .*, at byte [0-9]+$")

    def test_each_beginning_is_read_or_told(self) -> None:
        whole = written()
        for size in range(4, len(whole)):
            packets, told = read(whole[:size])
            self.assertLess(len(packets), 6)

    def test_big_endian_and_other_resolutions(self) -> None:
        body = struct.pack(">IHHq", 0x1A2B3C4D, 1, 0, -1)
        blocks = struct.pack(">II", 0x0A0D0D0A, 28) + body + struct.pack(">I", 28)
        options = struct.pack(">HHB3x", 9, 1, 0x8A) + struct.pack(">HHq", 14, 8, 5) + bytes(4)
        blocks += struct.pack(">IIHHI", 1, 20 + len(options), 1, 0, 0) + options + struct.pack(">I", 20 + len(options))
        blocks += struct.pack(">IIIIIII", 6, 36, 0, 0, 1536, 2, 60) + b"ab\0\0" + struct.pack(">I", 36)
        (packet,), _ = read(blocks)
        self.assertEqual((packet.data, packet.length, packet.time, packet.byte_order), (b"ab", 60, 6_500_000_000, ">"))

    @unittest.skipUnless(dpkt, "dpkt isn't installed: apt-get install python3-dpkt")
    def test_dpkt_reads_the_same(self) -> None:
        found = [(round(time), data) for time, data in dpkt.pcapng.Reader(io.BytesIO(written()))]
        self.assertEqual(found, list(enumerate(FRAMES)))

    @common.needs_tshark
    def test_wireshark_reads_the_same(self) -> None:
        path = self.room / "written.pcapng"
        path.write_bytes(written())
        rows = common.tshark(path, "frame", "frame.number", "frame.interface_name", "frame.time_epoch", "frame.len", "frame.comment")
        wanted = [[str(i + 1), ("out", "in")[i % 2], f"{i}.000000007", str(len(FRAMES[i])), f"comment {i}"] for i in range(6)]
        self.assertEqual(rows, wanted)


class Pcap(unittest.TestCase):
    def test_both_orders_and_resolutions(self) -> None:
        for order, magic, part in (("<", 0xA1B2C3D4, 7), (">", 0xA1B2C3D4, 7), ("<", 0xA1B23C4D, 7000), (">", 0xA1B23C4D, 7000)):
            head = struct.pack(order + "IHHiIII", magic, 2, 4, 0, 0, 65535, USBMON_MAPPED)
            data = head + struct.pack(order + "IIII", 3, part, 4, 9) + b"abcd"
            for given in (data, gzip.compress(data)):
                (packet,), told = read(given)
                self.assertEqual((packet.data, packet.length, packet.time), (b"abcd", 9, 3_000_007_000))
                self.assertEqual((packet.interface.link_type, packet.byte_order, told), (USBMON_MAPPED, order, []))

    def test_other_bytes_are_refused(self) -> None:
        for data in (b"", b"trace\nposted out\n"):
            with self.assertRaisesRegex(CaptureError, "neither a pcap nor a pcapng"):
                read(data)


if __name__ == "__main__":
    unittest.main()
