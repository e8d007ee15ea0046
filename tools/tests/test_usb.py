"""From packets to requests, functions and transfers."""
from __future__ import annotations

import unittest

import common
import make_captures
from usbnet_tools.capture_file import read_capture
from usbnet_tools.classes import NAMES, class_named
from usbnet_tools.descriptors import find_functions, functions_in, others_in
from usbnet_tools.transfers import End, Piece, assemble
from usbnet_tools.usb_records import Kind, read_record


def records_of(name: str) -> list:
    with open(common.STORED / name, "rb") as stream:
        return [record for record in map(read_record, read_capture(stream, print)) if record]


def pieces(*parts: tuple[bytes, End]) -> list[Piece]:
    return [Piece(number, number, data, end) for number, (data, end) in enumerate(parts, 1)]


def joined(wire: str, *parts: tuple[bytes, End]) -> list[list[int]]:
    """Which packets each transfer is of."""
    return [[piece.packet for piece in transfer.pieces] for transfer in assemble(class_named(wire), pieces(*parts))]


class Stored(unittest.TestCase):
    def test_the_stored_captures_are_those_that_were_made(self) -> None:
        for name, make in make_captures.CAPTURES.items():
            self.assertEqual((common.STORED / name).read_bytes(), make(), name)

    @common.needs_tshark
    def test_wireshark_reads_the_same_requests(self) -> None:
        names = ("frame.number", "usb.transfer_type", "usb.device_address", "usb.endpoint_address")
        for name in make_captures.CAPTURES:
            rows = common.tshark(common.STORED / name, "usb", *names)
            ours = [[record.packet, record.kind.value, record.device, record.endpoint] for record in records_of(name)]
            self.assertEqual([[int(word, 0) for word in row] for row in rows], ours, name)
        rows = common.tshark(common.STORED / "eem-189.pcap", "usb", "usb.urb_id", "usb.urb_type", "usb.urb_len", "usb.data_len")
        ours = [[record.request, "C" if record.is_completion else "S", record.length] for record in records_of("eem-189.pcap")]
        self.assertEqual([[int(row[0], 0), row[1].strip("'"), int(row[2])] for row in rows], ours)


class Functions(unittest.TestCase):
    def test_each_class_is_found(self) -> None:
        for subclass, names in ((0x06, ["ecm"]), (0x0C, ["eem"]), (0x0D, ["ncm16", "ncm32"]), (0x02, ["rndis"])):
            (found,) = functions_in(make_captures.descriptors(subclass, 0x02, 0x81), 1, 7, "test")
            self.assertEqual([wire.name for wire in found.choices], names)
            self.assertEqual((found.out.address, found.back.address, found.out.packet), (0x02, 0x81, 512))

    def test_each_class_of_the_program_is_in_the_one_list(self) -> None:
        launcher = (common.TOP / "usbnet").read_text()
        self.assertIn(f"(CLASS: {', '.join(NAMES)})", launcher)

    def test_the_format_is_the_one_that_was_set(self) -> None:
        (found,) = find_functions(records_of("ncm32-220.pcap")).functions
        self.assertEqual([wire.name for wire in found.choices], ["ncm32"])
        self.assertEqual(found.source, "descriptors in packet 2, format set in packet 4")

    def test_usbpcap_and_old_usbmon_have_their_function(self) -> None:
        for name, device, wire in (("ecm-usbpcap.pcap", (2, 3), "ecm"), ("eem-189.pcap", (1, 7), "eem")):
            (found,) = find_functions(records_of(name)).functions
            self.assertEqual(((found.bus, found.device), found.choices[0].name), (device, wire))

    def test_others_are_named(self) -> None:
        self.assertEqual(others_in(bytes([9, 2, 18, 0, 1, 1, 0, 0, 0, 9, 4, 0, 0, 1, 2, 0x0E, 0, 0])), {"MBIM"})


class Joining(unittest.TestCase):
    full = make_captures.eem(make_captures.frame(1, 506))

    def test_a_short_packet_ends_a_transfer(self) -> None:
        self.assertEqual(joined("ecm", (b"a" * 60, End.SHORT), (b"b" * 60, End.SHORT)), [[1], [2]])

    def test_full_packets_go_on_where_the_capture_says_so(self) -> None:
        self.assertEqual(joined("ecm", (b"a" * 512, End.FULL), (b"b" * 60, End.SHORT), (b"c" * 60, End.SHORT)), [[1, 2], [3]])

    def test_where_nothing_is_told_ecm_is_whole(self) -> None:
        self.assertEqual(joined("ecm", (b"a" * 512, End.UNTOLD), (b"b" * 60, End.SHORT)), [[1], [2]])

    def test_the_empty_packet_belongs_to_what_filled_its_packets(self) -> None:
        for end in (End.FULL, End.UNTOLD):
            self.assertEqual(joined("ecm", (b"a" * 512, end), (b"", End.SHORT), (b"", End.SHORT)), [[1, 2], [3]])
            self.assertEqual(joined("eem", (self.full, end), (b"", End.SHORT), (b"b" * 60, End.SHORT)), [[1, 2], [3]])

    def test_lengths_tell_of_eem_and_ncm(self) -> None:
        long = make_captures.eem(make_captures.frame(1, 600))
        for end in (End.FULL, End.UNTOLD):
            self.assertEqual(joined("eem", (long[:512], end), (long[512:], End.SHORT)), [[1, 2]])
            self.assertEqual(joined("eem", (self.full, end), (self.full, end)), [[1], [2]])
            block = make_captures.ncm32(make_captures.frame(1, 60), size=512)
            self.assertEqual(joined("ncm32", (block, end), (block, end)), [[1], [2]])

    def test_lengths_tell_of_rndis(self) -> None:
        message = make_captures.rndis(make_captures.frame(1, 468))
        for end in (End.FULL, End.UNTOLD):
            self.assertEqual(joined("rndis", (message, end), (message, end)), [[1], [2]])
            self.assertEqual(joined("rndis", (message * 2, end), (b"", End.SHORT), (message, end)), [[1, 2], [3]])
            long = make_captures.rndis(make_captures.frame(1, 600))
            self.assertEqual(joined("rndis", (long[:512], end), (long[512:], End.SHORT)), [[1, 2]])
        for data, whole in ((message + b"\0", True), (message + b"\0\0", False), (b"\0" * 512, None), (b"", True), (b"\0", False)):
            self.assertEqual(class_named("rndis").is_whole(data), whole, data[:8])

    def test_eem_commands_have_their_bytes(self) -> None:
        echo, hint, reserved = b"\x04\x88abcd", b"\x04\x90", b"\x04\xc0"
        for packets, whole in ((echo, True), (echo[:4], False), (hint, True), (reserved, True), (b"\0\0", True), (hint + echo + self.full, True)):
            self.assertEqual(class_named("eem").is_whole(packets), whole, packets[:8])

    def test_a_signature_begins_a_block_where_nothing_is_told(self) -> None:
        block = make_captures.ncm32(make_captures.frame(1, 600))
        self.assertEqual(joined("ncm32", (block[:512], End.UNTOLD), (block, End.SHORT)), [[1], [2]])

    def test_places_are_found_in_their_packets(self) -> None:
        (transfer,) = assemble(class_named("ecm"), pieces((b"a" * 512, End.FULL), (b"b" * 60, End.SHORT)))
        self.assertEqual((transfer.where(0), transfer.where(511), transfer.where(512), transfer.where(600)), ((1, 0), (1, 511), (2, 0), (2, 88)))

    def test_only_bulk_and_control_are_kept(self) -> None:
        self.assertEqual({record.kind for record in records_of("eem-189.pcap")}, {Kind.CONTROL, Kind.BULK})


if __name__ == "__main__":
    unittest.main()
