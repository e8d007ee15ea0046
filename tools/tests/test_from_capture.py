"""from-capture names the faults of the stored captures, and writes their frames. The verdicts are stored ones of the program."""
from __future__ import annotations

import json
import os
import tempfile
import unittest
from pathlib import Path

import common
import record_verdicts
from make_captures import BEGIN, frame
from usbnet_tools.capture_file import read_capture
from usbnet_tools.from_capture import around
from usbnet_tools.program import BINARY, LAUNCHER, Program, ProgramError, Verdict, read_verdict

# for each stored capture what is printed behind the two lines on the capture and the program, and the frames by lane
EEM = """\
function device 1.7, eem, out 0x02, in 0x81, packets of 512 bytes: descriptors in packet 3
lane out transfers 5 frames 4 commands 0 faulty 2 withdrawn 0 unseen 1
lane in transfers 3 frames 1 commands 0 faulty 2 withdrawn 1 unseen 0
fault packet 6 endpoint 0x02 bad-sentinel at 0: [40] 00 02 00 00 00 00 02 02 00 00 00 00 01 08 00 ..
fault packet 8 endpoint 0x02 truncated at 66: .. 2e 2f 30 31 de ad be ef [40] 00 01
fault packet 21 endpoint 0x81 capture cut: 652 of 906 bytes
fault packet 23 endpoint 0x81 failed: EPROTO -71
"""
ECM = """\
function device 2.3, ecm, out 0x01, in 0x82, packets of 512 bytes: descriptors in packet 2
lane out transfers 3 frames 1 commands 0 faulty 2 withdrawn 0 unseen 0
lane in transfers 2 frames 2 commands 0 faulty 0 withdrawn 1 unseen 0
fault packet 7 endpoint 0x01 short-frame at 0: [02] 00 00 00 00 02 02 00 00 00 00 01 08
fault packet 15 endpoint 0x01 failed: stall 0xc0000004
"""
NCM32 = """\
function device 1.7, ncm32, out 0x02, in 0x81, packets of 512 bytes: descriptors in packet 2, format set in packet 4
lane out transfers 4 frames 5 commands 0 faulty 1 withdrawn 0 unseen 0
lane in transfers 2 frames 2 commands 0 faulty 0 withdrawn 0 unseen 0
fault packet 13 endpoint 0x02 bad-entry at 92: .. 00 00 00 00 00 00 00 00 [10] 00 00 00 30 02 00 00 00 00 00 00 00 00 00 00
"""
FRAMES = {
    "eem-189.pcap": [[frame(1, 60), frame(2, 80), frame(5, 600), frame(6, 506)], [frame(7, 60)]],
    "ecm-usbpcap.pcap": [[frame(1, 60)], [frame(3, 512), frame(4, 100)]],
    "ncm32-220.pcap": [[frame(1, 60), frame(2, 100), frame(3, 700), frame(4, 600), frame(5, 200)], [frame(7, 300), frame(8, 60)]],
}


class Captures(common.InRoom):
    def decode(self, name: str, *words: object, status: int = 1) -> str:
        """What the tool prints for a stored capture, behind the lines on the capture and the program."""
        done = common.run_tool("from-capture", common.STORED / name, "-o", self.room / "frames.pcapng", "--program", common.DOUBLE, *words)
        self.assertEqual((done.returncode, done.stderr), (status, b""), done.stderr)
        return done.stdout.decode().split("\n", 2)[2]

    def frames(self) -> list[list[bytes]]:
        """The frames that were written, by lane."""
        with open(self.room / "frames.pcapng", "rb") as stream:
            packets = list(read_capture(stream, self.fail))
        return [[packet.data for packet in packets if packet.interface.name == lane] for lane in ("out", "in")]

    def test_faults_are_named(self) -> None:
        for name, text in (("eem-189.pcap", EEM), ("ecm-usbpcap.pcap", ECM), ("ncm32-220.pcap", NCM32)):
            self.assertEqual(self.decode(name), text)
            self.assertEqual(self.frames(), FRAMES[name], name)

    def test_times_are_the_captures(self) -> None:
        self.decode("ecm-usbpcap.pcap")
        with open(self.room / "frames.pcapng", "rb") as stream:
            times = [packet.time - BEGIN * 10**9 for packet in read_capture(stream, self.fail)]
        self.assertEqual(times, [4_000_000, 9_000_000, 13_000_000])

    def test_a_capture_without_descriptors_asks_for_options(self) -> None:
        done = common.run_tool("from-capture", common.STORED / "no-descriptors-220.pcap", "--program", common.DOUBLE)
        self.assertEqual((done.returncode, done.stdout), (2, b""))
        self.assertIn(b"say the class and its bulk endpoints by --class, --out and --in", done.stderr)
        self.assertIn(b"device 1.7 endpoint 0x03: 2 requests with bytes, mostly from 02 00 00 00 on", done.stderr)
        told = self.decode("no-descriptors-220.pcap", "--class", "ecm", "--out", "3", "--in", "0x84", status=0)
        self.assertIn("lane out transfers 2 frames 2", told)
        self.assertEqual(self.frames(), [[frame(1, 60), frame(2, 512)], [frame(3, 70), frame(4, 512)]])

    def test_what_is_no_capture_of_usb_is_told(self) -> None:
        done = common.run_tool("from-capture", common.STORED / "three-pings.trace")
        self.assertEqual((done.returncode, done.stderr), (2, b"from-capture: neither a pcap nor a pcapng: it begins with 74726163\n"))
        self.decode("three-pings.pcapng", status=0)
        done = common.run_tool("from-capture", self.room / "frames.pcapng")
        self.assertEqual((done.returncode, done.stderr), (2, b"from-capture: no USB in it: its link type is 1, and not 189, 220 or 249\n"))

    @common.needs_tshark
    def test_wireshark_shows_the_frames(self) -> None:
        self.decode("ncm32-220.pcap")
        for index, frames in enumerate(FRAMES["ncm32-220.pcap"]):
            self.assertEqual(common.tshark_frames(self.room / "frames.pcapng", index), [one.hex() for one in frames])


class Words(unittest.TestCase):
    def test_bytes_around_a_place(self) -> None:
        data = bytes(range(40))
        self.assertEqual(around(data, 0), "[00] 01 02 03 04 05 06 07 08 09 0a 0b 0c 0d 0e 0f ..")
        self.assertEqual(around(data, 39), ".. 1f 20 21 22 23 24 25 26 [27]")
        self.assertEqual(around(b"", 0), "[end]")

    def test_verdicts_are_read(self) -> None:
        text = "class eem\nframes 1\nframe 0 2 abcd\ncommands 3\n"
        self.assertEqual(read_verdict(0, text), Verdict((b"\xab\xcd",), 3))
        self.assertEqual(read_verdict(8, "bad transfer ndp-loop 12\n"), Verdict(fault="ndp-loop", place=12))
        self.assertEqual(read_verdict(7, "too large\n"), Verdict(fault="too-large"))
        for status, text in ((1, "no memory\n"), (0, "class eem\nframes 2\nframe 0 2 abcd\ncommands 3\n"), (8, ""), (127, "")):
            with self.assertRaisesRegex(ProgramError, "gave no verdict"):
                read_verdict(status, text)

    def test_many_transfers_are_asked_at_the_same_time(self) -> None:
        asked = [("ecm", frame(index, 14 + index % 40)) for index in range(200)]
        with tempfile.TemporaryDirectory() as room:
            path = Path(room) / "program"
            path.write_text("#!/bin/sh\necho bad transfer short-frame $(wc -c)\nexit 8\n")
            path.chmod(0o700)
            verdicts = Program(path, "test").decode(asked + asked)
        self.assertEqual(verdicts, {one: Verdict(fault="short-frame", place=len(one[1])) for one in asked})

    def test_a_program_that_isnt_built_is_asked_few_transfers(self) -> None:
        with self.assertRaisesRegex(ProgramError, "9 distinct transfers, and the program isn't built"):
            Program(LAUNCHER, "test", 8).decode(("ecm", bytes([index])) for index in range(9))


class TheProgram(unittest.TestCase):
    """The one test that asks the program itself: the one that USBNET_PROGRAM names, or else the proved build."""

    def test_the_stored_verdicts_are_the_programs(self) -> None:
        given = os.environ.get("USBNET_PROGRAM")
        program = Program(Path(given).resolve(), given) if given else Program.find(None)
        if program.path != BINARY and not given:
            self.skipTest("no proved build: ./usbnet --build")
        stored = json.loads((common.STORED / "verdicts.json").read_text())
        self.assertEqual({key: tuple(value) for key, value in stored.items()}, record_verdicts.verdicts_of(str(program.path)))


if __name__ == "__main__":
    unittest.main()
