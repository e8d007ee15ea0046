"""to-capture writes what from-capture and Wireshark read back."""
from __future__ import annotations

import unittest

import common
from usbnet_tools.capture_file import read_capture
from usbnet_tools.trace import read_output
from usbnet_tools.usb_records import Kind, read_record

STORED = ("sleep-and-unplug", "three-pings")


class ToCapture(common.InRoom):
    def made(self, name: str):
        """The packets that the tool makes of a stored trace."""
        done = common.run_tool("to-capture", common.STORED / f"{name}.trace", "-o", self.room / "made.pcapng")
        self.assertEqual((done.returncode, done.stderr), (0, b""))
        with open(self.room / "made.pcapng", "rb") as stream:
            return list(read_capture(stream, self.fail))

    def test_the_stored_captures_are_those_of_their_traces(self) -> None:
        for name in STORED:
            self.made(name)
            self.assertEqual((self.room / "made.pcapng").read_bytes(), (common.STORED / f"{name}.pcapng").read_bytes())

    def test_frames_stand_at_their_lines(self) -> None:
        for name in STORED:
            lines = read_output((common.STORED / f"{name}.trace").read_text().splitlines()).lines
            given = [(line.lane, line.number * 10**9, line["bytes"]) for line in lines if line.kind == "gave"]
            found = [(packet.interface.name, packet.time, packet.data) for packet in self.made(name) if packet.interface.name != "usb"]
            self.assertEqual(found, given)

    def test_faults_are_statuses(self) -> None:
        records = [read_record(packet) for packet in self.made("sleep-and-unplug") if packet.interface.name == "usb"]
        bulk = [record for record in records if record.kind is Kind.BULK]
        ended = [(record.time // 10**9, record.endpoint, record.failure) for record in bulk if record.is_completion]
        self.assertEqual(ended, [(10, 1, ""), (12, 0x81, ""), (31, 1, "EPIPE -32"), (36, 0x81, "ECONNRESET -104"), (37, 1, "ECONNRESET -104")])
        self.assertEqual({record.key for record in bulk if record.is_completion}, {record.key for record in bulk if not record.is_completion})

    def test_an_inward_request_has_room_for_its_transfer(self) -> None:
        """EEM's gadget packs frames, and no report says how many."""
        transfer = (b"\x00" * 4000).hex().encode()
        given = b"trace\nposted in\nmade in 0 0 2 " + transfer + b"\nflying in 0\nlanded in 0\nend\n"
        done = common.run_tool("to-capture", "-o", self.room / "made.pcapng", given=given)
        self.assertEqual((done.returncode, done.stderr), (0, b""))
        with open(self.room / "made.pcapng", "rb") as stream:
            submitted, completed = [read_record(packet) for packet in read_capture(stream, self.fail)]
        self.assertEqual((submitted.is_completion, completed.is_completion, completed.length), (False, True, 4000))
        self.assertGreaterEqual(submitted.length, completed.length)

    def test_an_attempt_that_failed_is_completed_and_the_transfer_submitted_anew(self) -> None:
        records = [read_record(packet) for packet in self.made("tried-again") if packet.interface.name == "usb"]
        bulk = [(record.time // 10**9, record.endpoint, record.is_completion, record.failure) for record in records if record.kind is Kind.BULK]
        outward = [(time, "completed" if ends else "submitted", failure) for time, endpoint, ends, failure in bulk if endpoint == 1]
        self.assertEqual(outward[:6], [
            (5, "submitted", ""), (9, "completed", "EPROTO -71"), (9, "submitted", ""),
            (15, "submitted", ""), (17, "completed", "EPROTO -71"), (17, "submitted", ""),
        ])
        ended = [(time, endpoint, failure) for time, endpoint, ends, failure in bulk if ends]
        self.assertEqual(ended[2:], [
            (17, 1, "EPROTO -71"), (19, 0x81, "EPROTO -71"), (23, 1, ""), (25, 0x81, "EPROTO -71"), (32, 1, ""), (34, 0x81, "EPROTO -71"),
            (44, 0x81, ""),
        ])

    def test_back_and_forth(self) -> None:
        for name, status in (("sleep-and-unplug", 1), ("three-pings", 0)):
            given = [packet.data for packet in self.made(name) if packet.interface.name != "usb"]
            done = common.run_tool(
                "from-capture", self.room / "made.pcapng", "-o", self.room / "frames.pcapng", "--program", common.DOUBLE
            )
            self.assertEqual((done.returncode, done.stderr), (status, b""))
            with open(self.room / "frames.pcapng", "rb") as stream:
                found = [packet.data for packet in read_capture(stream, self.fail)]
            self.assertEqual(sorted(found), sorted(given))

    def test_a_trace_that_isnt_one_is_told(self) -> None:
        done = common.run_tool("to-capture", "-o", self.room / "made.pcapng", given=b"trace\nlanded out 3\nend\n")
        self.assertEqual((done.returncode, done.stderr), (2, b"to-capture: line 2: 'landed out 3' is of a transfer that was never made\n"))

    @common.needs_tshark
    def test_wireshark_shows_frames_and_transfers(self) -> None:
        given = [packet.data.hex() for packet in self.made("three-pings") if packet.interface.name == "out"]
        path = self.room / "made.pcapng"
        self.assertEqual(common.tshark_frames(path, 0), given)
        inside = [row[0] for row in common.tshark(path, "usb.transfer_type == 3 && eth", "frame.comment")]
        self.assertEqual(inside, [f"made out {index} {index} {index + 1} <57 bytes>" for index in range(3)])
        rows = common.tshark(common.STORED / "sleep-and-unplug.pcapng", "usb.urb_status == -32", "frame.time_epoch", "frame.comment")
        self.assertEqual(rows, [["31.000000000", "failed out 1 halt"]])


if __name__ == "__main__":
    unittest.main()
