"""to-script writes the frames of a capture as a script's lines."""
from __future__ import annotations

import common
from make_captures import frame
from usbnet_tools.capture_file import ETHERNET, Interface, Writer
from usbnet_tools.to_script import by_flow


class ToScript(common.InRoom):
    def capture(self, name: str, *frames: bytes, direction: int = 0) -> str:
        path = self.room / "given.pcapng"
        with open(path, "wb") as out:
            writer = Writer(out, [Interface(ETHERNET, name)], "test")
            for index, one in enumerate(frames):
                writer.packet(0, index, one, direction=direction)
        return str(path)

    def script(self, *words: str) -> tuple[list[str], str]:
        done = common.run_tool("to-script", *words)
        self.assertEqual(done.returncode, 0, done.stderr)
        return done.stdout.decode().splitlines(), done.stderr.decode()

    def test_lanes_are_those_of_the_interfaces(self) -> None:
        lines, told = self.script(str(common.STORED / "sleep-and-unplug.pcapng"), "--class", "ncm16", "--line", "requests 2 2 2 2")
        wanted = [("out", 0x00), ("in", 0xAA), ("out", 0x01)]
        heads = {"out": "0200000000020200000000010800", "in": "0200000000010200000000020800"}
        frames = [f"{lane} 0 {heads[lane]}{filler:02x}" for lane, filler in wanted]
        self.assertEqual(lines[:2], ["class ncm16", "requests 2 2 2 2"])
        self.assertEqual([line[: len(frames[0]) if line.startswith("out") else len(frames[1])] for line in lines[2:]], frames)
        self.assertEqual(told, "")

    def test_the_first_source_is_the_host_where_nothing_tells(self) -> None:
        back = frame(2, 60)[6:12] + frame(2, 60)[:6] + frame(2, 60)[12:]
        path = self.capture("eth0", frame(1, 60), back)
        lines, told = self.script(path)
        self.assertEqual(lines, ["class ecm", f"out 0 {frame(1, 60).hex()}", f"in 0 {back.hex()}"])
        self.assertIn("02:00:00:00:00:01, the source of packet 1, is taken for the host's address", told)
        lines, told = self.script(path, "--host", "02:00:00:00:00:02")
        self.assertEqual(([line.split()[0] for line in lines[1:]], told), (["in", "out"], ""))

    def test_directions_of_the_capture(self) -> None:
        for direction, lane in ((1, "in"), (2, "out")):
            lines, told = self.script(self.capture("usb0", frame(1, 60), direction=direction))
            self.assertEqual((lines[1].split()[0], told), (lane, ""))

    def test_senders_come_again_after_the_fourth(self) -> None:
        frames = [bytes(6) + bytes([2, 0, 0, 0, 0, index]) + b"\x08\x00" + bytes(46) for index in (1, 2, 3, 1, 4, 5)]
        lines, _ = self.script(self.capture("out", *frames))
        self.assertEqual([line.split()[1] for line in lines[1:]], ["0", "1", "2", "0", "3", "0"])

    def test_flows_are_told_apart_by_their_ports(self) -> None:
        head = bytes(12) + b"\x08\x00" + bytes([0x45]) + bytes(8) + bytes([17]) + bytes(2) + bytes(range(8))
        one, other = head + b"\x00\x01\x00\x02", head + b"\x00\x01\x00\x03"
        self.assertNotEqual(by_flow(one), by_flow(other))
        self.assertEqual(by_flow(one + b"payload"), by_flow(one))

    def test_long_frames_have_a_segment_and_too_long_ones_are_left_out(self) -> None:
        lines, told = self.script(self.capture("out", frame(1, 2000), frame(2, 9000)))
        self.assertEqual((lines[:2], len(lines)), (["class ecm", "segment 2000"], 3))
        self.assertEqual(told, "to-script: packet 2 is left out: it has 9000 bytes, and a frame at most 8192\n")

    def test_no_frames_is_told(self) -> None:
        done = common.run_tool("to-script", common.STORED / "no-descriptors-220.pcap")
        self.assertEqual((done.returncode, done.stdout), (2, b""))
        self.assertIn(b"no Ethernet frames in it", done.stderr)
