"""The tool to-capture: a trace as a pcapng that Wireshark shows. Not proved."""
from __future__ import annotations

import argparse
import struct
import sys
from collections import deque
from dataclasses import dataclass, field
from typing import Callable

from . import NOT_PROVED
from .capture_file import ETHERNET, INBOUND, NANOSECONDS, OUTBOUND, USBMON_MAPPED, Interface, Writer
from .descriptors import functions_in
from .trace import Line, Output, Report, TraceError, read_output
from .usb_records import URB_ZERO_PACKET, Kind

BUS, DEVICE = 1, 1
OUT_FRAMES, IN_FRAMES, USB = 0, 1, 2
FRAMES = {"out": (OUT_FRAMES, OUTBOUND), "in": (IN_FRAMES, INBOUND)}
INTERFACES = [
    Interface(ETHERNET, "out", "frames that arrived at the gadget"),
    Interface(ETHERNET, "in", "frames that arrived at the host"),
    Interface(USBMON_MAPPED, "usb", "transfers as usbmon would show them at the host"),
]
IN_PROGRESS, ARRIVED, PROTOCOL, STALL, WITHDRAWN = -115, 0, -71, -32, -104
FAULTS = {"proto": PROTOCOL, "halt": STALL}
# requests have addresses in the host's memory
FIRST_REQUEST, REQUEST_SIZE = 0xFFFF_8880_0000_0000, 0x100
URB_DIR_IN = 0x200
SET_UP = "set-up"
# what EEM adds to a frame: its header, the sentinel, and perhaps the empty packet
EEM_OVERHEAD = 8
NO_SETUP, NOTHING_IN, NOTHING_OUT = ord("-"), ord("<"), ord(">")
DESCRIPTORS = bytes.fromhex("8006000200")
EPILOG = """\
The file has three interfaces: `out` and `in` with the delivered frames, and `usb` with the transfers, as usbmon would show them at the
host. Its times are the trace's line numbers, in seconds, and each packet has its line as a comment. An outward transfer is submitted
where it was made (also where a sleeping link defers it) and completed where it landed (status 0), failed (proto -71, halt -32) or was
cut (-104); where it is tried again it is completed (-71) and submitted anew. An inward one is the completion of the request that
`posted in` submitted. An inward transfer that is cut while it doesn't fly isn't seen at the host. Where the report follows the trace, its
set-up stands at time 0, so that the descriptors are there.
"""


@dataclass(frozen=True)
class Event:
    """An event of a USB request: its submission or its completion."""

    is_completion: bool
    request: int
    kind: Kind
    endpoint: int
    status: int
    length: int
    data: bytes = b""
    setup: bytes = b""

    def packet(self, time: int) -> bytes:
        """The event as usbmon has it, at this second: a header of 64 bytes and the data."""
        is_inward = bool(self.endpoint & 0x80)
        carries = bool(self.data) or (self.kind is Kind.BULK and is_inward == self.is_completion)
        head = struct.pack(
            "<QBBBBHBBqiiII8siiII", self.request, ord("C" if self.is_completion else "S"), self.kind.value, self.endpoint, DEVICE, BUS,
            0 if self.setup else NO_SETUP, 0 if carries else NOTHING_IN if is_inward else NOTHING_OUT,
            time, 0, self.status, self.length, len(self.data), self.setup, 0, 0, URB_DIR_IN if is_inward else URB_ZERO_PACKET, 0,
        )
        return head + self.data


@dataclass
class Usb:
    """Writes the USB requests of a trace."""

    writer: Writer
    report: Report
    longest_inward: int = 0
    """The bytes of the longest inward transfer: the report doesn't say how many EEM's gadget packs into one."""
    out_address: int = 0x02
    in_address: int = 0x81
    requests: int = 0
    """How many requests were submitted."""
    made: dict = field(default_factory=dict)
    """The bytes of each transfer, by lane and serial."""
    submitted: dict = field(default_factory=dict)
    """The request of each outward transfer that isn't completed, by serial."""
    posted: deque = field(default_factory=deque)
    """The requests that wait for an inward transfer, the first one first."""
    flying: dict = field(default_factory=dict)
    """The request of each inward transfer on the bus, by serial."""

    def set_up(self) -> None:
        """Writes the control transfers of the report's set-up, at time 0."""
        for setup, payload in self.report.controls:
            endpoint = setup[0] & 0x80
            sent, answer = (b"", payload) if endpoint else (payload, b"")
            request = self._submit(0, SET_UP, Kind.CONTROL, endpoint, int.from_bytes(setup[6:8], "little"), sent, setup)
            self._write(0, SET_UP, Event(True, request, Kind.CONTROL, endpoint, ARRIVED, len(payload), answer))
            if setup.startswith(DESCRIPTORS):
                for function in functions_in(payload, BUS, DEVICE, "the report"):
                    self.out_address, self.in_address = function.out.address, function.back.address

    def made_transfer(self, line: Line) -> None:
        self.made[line.lane, line["serial"]] = line["bytes"]
        if line.lane == "out":
            self._submit_outward(line)

    def posted_request(self, line: Line) -> None:
        if line.lane == "in":
            largest = max(self.report.segment + EEM_OVERHEAD, self.report.block, self.longest_inward)
            # one packet more, so that what fills its packets has room for the empty one
            length = (largest // self.report.packet + 1) * self.report.packet
            self.posted.append(self._submit(line.number, line.text, Kind.BULK, self.in_address, length))

    def recalled_request(self, line: Line) -> None:
        if line.lane == "in":
            self._end_inward(line, self._first_posted(line), WITHDRAWN)

    def took_off(self, line: Line) -> None:
        if line.lane == "in":
            self.flying[line["serial"]] = self._first_posted(line)

    def ended(self, line: Line) -> None:
        """Writes the completion of a transfer that landed, failed, is tried again or was cut."""
        fault = FAULTS.get(line.fields.get("fault"), PROTOCOL)
        status = {"landed": ARRIVED, "failed": fault, "retried": PROTOCOL, "cut": WITHDRAWN}[line.kind]
        data = self._bytes_of(line) if status == ARRIVED else b""
        if line.lane == "out":
            request = self.submitted.pop(line["serial"], None)
            if request is None:
                raise TraceError(f"line {line.number}: {line.text!r} is of a transfer that isn't under way")
            self._write(line.number, line.text, Event(True, request, Kind.BULK, self.out_address, status, len(data)))
        elif line["serial"] in self.flying:
            self._end_inward(line, self.flying.pop(line["serial"]), status, data)

    def tried_again(self, line: Line) -> None:
        """Writes the completion of an attempt that failed, and submits an outward transfer anew."""
        self.ended(line)
        if line.lane == "out":
            self._submit_outward(line)

    def _submit_outward(self, line: Line) -> None:
        data = self._bytes_of(line)
        self.submitted[line["serial"]] = self._submit(line.number, line.text, Kind.BULK, self.out_address, len(data), data)

    def _end_inward(self, line: Line, request: int, status: int, data: bytes = b"") -> None:
        self._write(line.number, line.text, Event(True, request, Kind.BULK, self.in_address, status, len(data), data))

    def _bytes_of(self, line: Line) -> bytes:
        if (line.lane, line["serial"]) not in self.made:
            raise TraceError(f"line {line.number}: {line.text!r} is of a transfer that was never made")
        return self.made[line.lane, line["serial"]]

    def _first_posted(self, line: Line) -> int:
        if not self.posted:
            raise TraceError(f"line {line.number}: {line.text!r}, and no request is posted")
        return self.posted.popleft()

    def _submit(self, time: int, comment: str, kind: Kind, endpoint: int, length: int, data: bytes = b"", setup: bytes = b"") -> int:
        """Writes the submission of a new request, and answers the request."""
        request = FIRST_REQUEST + REQUEST_SIZE * self.requests
        self.requests += 1
        self._write(time, comment, Event(False, request, kind, endpoint, IN_PROGRESS, length, data, setup))
        return request

    def _write(self, time: int, comment: str, event: Event) -> None:
        self.writer.packet(USB, time * NANOSECONDS, event.packet(time), comment)


def arguments() -> argparse.ArgumentParser:
    parser = argparse.ArgumentParser(
        prog="to-capture",
        description=f"Writes a trace as a pcapng, so that Wireshark shows its frames and its transfers. {NOT_PROVED}",
        epilog=EPILOG,
        formatter_class=argparse.RawDescriptionHelpFormatter,
    )
    parser.add_argument("trace", nargs="?", default="-", help="what usbnet serial or run printed; standard input without it")
    parser.add_argument("-o", "--output", metavar="FILE", required=True, help="the pcapng to write")
    return parser


def write_capture(output: Output, writer: Writer) -> None:
    """Writes the packets of a trace, and before them the set-up of its report."""
    longest = max((len(line["bytes"]) for line in output.lines if line.kind == "made" and line.lane == "in"), default=0)
    usb = Usb(writer, output.report or Report(), longest)
    usb.set_up()
    calls: dict[str, Callable[[Line], None]] = {
        "made": usb.made_transfer, "posted": usb.posted_request, "recalled": usb.recalled_request, "flying": usb.took_off,
        "landed": usb.ended, "failed": usb.ended, "retried": usb.tried_again, "cut": usb.ended,
    }
    for line in output.lines:
        if line.kind == "gave":
            interface, direction = FRAMES[line.lane]
            writer.packet(interface, line.number * NANOSECONDS, line["bytes"], line.text, direction)
        elif line.kind in calls:
            calls[line.kind](line)


def main() -> int:
    asked = arguments().parse_args()
    try:
        stream = sys.stdin if asked.trace == "-" else open(asked.trace, encoding="ascii")
        with stream:
            output = read_output(stream)
        with open(asked.output, "wb") as out:
            write_capture(output, Writer(out, INTERFACES, "usbnet to-capture"))
        return 0
    except (OSError, UnicodeDecodeError, TraceError) as trouble:
        print(f"to-capture: {trouble}", file=sys.stderr)
        return 2
