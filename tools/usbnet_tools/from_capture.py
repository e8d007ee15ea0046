"""The tool from-capture: from a capture of USB to Ethernet frames and a list of faulty transfers. Not proved."""
from __future__ import annotations

import argparse
import sys
from collections import Counter
from dataclasses import dataclass, field
from typing import Iterator, TextIO

from . import NOT_PROVED
from .capture_file import ETHERNET, CaptureError, Interface, Writer, read_capture
from .classes import NAMES, WireClass, by_signature, class_named
from .descriptors import Endpoint, Found, Function, find_functions
from .program import Program, ProgramError, Verdict
from .transfers import Piece, Requests, Transfer, assemble
from .usb_records import LINK_TYPES, Kind, Record, read_record

CLEAN, FAULTY, FAILED = 0, 1, 2
BEFORE, BEHIND = 8, 16
LANES = ("out", "in")
EPILOG = """\
The list has a line for each faulty transfer:

  fault packet 312 endpoint 0x02 bad-entry at 136, byte 136 of the packet's data: 10 00 00 00 0e 00 00 00 [3c] 00 ..

with the packet's number in the capture as Wireshark counts, and the program's word for the fault and its place in the transfer
(docs/FORMATS.md, "Decode output"). A transfer that the capture itself says isn't whole is told with `failed` or `capture cut`
in place of a fault, and isn't decoded.

Statuses: 0 no transfer is faulty, 1 some are, 2 the capture, the function or the program can't be used.
"""


class Trouble(Exception):
    """What keeps the tool from going on."""


@dataclass
class Capture:
    """The records of a capture's bulk and control requests, and what it was made by."""

    name: str
    packets: int = 0
    kinds: Counter = field(default_factory=Counter)
    records: list[Record] = field(default_factory=list)


@dataclass
class Lane:
    """One direction of a function: its transfers with their verdicts, in order. A transfer that wasn't decoded has none."""

    name: str
    function: Function
    wire: WireClass
    requests: Requests
    transfers: list[tuple[Transfer, "Verdict | None"]] = field(default_factory=list)

    @property
    def endpoint(self) -> int:
        return self.requests.endpoint.address

    def faulty(self) -> list[tuple[Transfer, "Verdict | None"]]:
        return [(transfer, verdict) for transfer, verdict in self.transfers if verdict is None or verdict.fault]


def arguments() -> argparse.ArgumentParser:
    parser = argparse.ArgumentParser(
        prog="from-capture",
        description=f"Reads a capture of USB, has each bulk transfer of its network function decoded, and lists the faulty ones. {NOT_PROVED}",
        epilog=EPILOG,
        formatter_class=argparse.RawDescriptionHelpFormatter,
    )
    parser.add_argument("capture", help="a pcap or pcapng of usbmon (link type 189 or 220) or USBPcap (249), or - for standard input")
    parser.add_argument("-o", "--output", metavar="FILE", help="write the Ethernet frames there, as a pcapng with the capture's times")
    parser.add_argument("--class", dest="wire", choices=NAMES, help="the class, where the capture doesn't tell it")
    parser.add_argument("--out", type=_number, metavar="ENDPOINT", help="the bulk endpoint to the device, as 0x02 or 2")
    parser.add_argument("--in", dest="back", type=_number, metavar="ENDPOINT", help="the one to the host, as 0x81 or 129")
    parser.add_argument("--device", type=_device, metavar="BUS.DEVICE", help="this device alone, as 1.5")
    parser.add_argument("--packet", type=int, choices=(8, 16, 32, 64, 512, 1024), default=512, metavar="BYTES", help="the bytes of a full packet, where no descriptor tells (512)")
    parser.add_argument("--request", type=int, metavar="BYTES", help="bytes of the host's inward requests, where the capture doesn't tell (USBPcap)")
    parser.add_argument("--program", metavar="PATH", help="the usbnet program, where it isn't the one of this repository")
    return parser


def _number(text: str) -> int:
    return int(text, 0)


def _device(text: str) -> tuple[int, int]:
    bus, device = text.split(".")
    return int(bus), int(device)


def read_records(name: str) -> Capture:
    """Reads a capture whole."""
    capture = Capture("standard input" if name == "-" else name)
    stream = sys.stdin.buffer if name == "-" else open(name, "rb")
    with stream:
        for packet in read_capture(stream, lambda text: print(f"from-capture: {name}: {text}", file=sys.stderr)):
            capture.packets += 1
            capture.kinds[packet.interface.link_type] += 1
            record = read_record(packet)
            if record:
                capture.records.append(record)
    return capture


def functions_of(capture: Capture, asked: argparse.Namespace) -> list[Function]:
    """The functions that are asked for, or else those that the capture tells of."""
    if asked.out is not None or asked.back is not None:
        if None in (asked.out, asked.back, asked.wire):
            raise Trouble("--class, --out and --in belong together")
        bus, device = asked.device or (None, None)
        ends = Endpoint(asked.out, asked.packet), Endpoint(asked.back | 0x80, asked.packet)
        return [Function(bus, device, *ends, [class_named(asked.wire)], "the options")]
    found = find_functions(capture.records)
    functions = [one for one in found.functions if asked.device in (None, (one.bus, one.device))]
    if not functions:
        raise Trouble(_no_function(capture, found))
    for function in functions:
        if asked.wire:
            function.choices, function.source = [class_named(asked.wire)], function.source + ", class by option"
    return functions


def _no_function(capture: Capture, found: Found) -> str:
    """Why there is nothing to decode, and what would help."""
    kinds = set(capture.kinds)
    if not kinds & set(LINK_TYPES):
        return f"no USB in it: its link type is {', '.join(map(str, sorted(kinds))) or 'none, as it has no packets'}, and not 189, 220 or 249"
    others = f" There is a function of {', '.join(sorted(found.others))}, which the program doesn't decode." if found.others else ""
    seen: dict[tuple[int, int, int], list[bytes]] = {}
    for record in capture.records:
        if record.kind == Kind.BULK:
            seen.setdefault((record.bus, record.device, record.endpoint), []).append(record.data)
    endpoints = "".join(f"\n  device {bus}.{device} endpoint {end:#04x}: {_looks(datas)}" for (bus, device, end), datas in sorted(seen.items()))
    return (
        f"no descriptors of an ECM, EEM, NCM or RNDIS function in it.{others} Capture from before the device is plugged in, or say the class and "
        f"its bulk endpoints by --class, --out and --in (lsusb -v shows them). Its bulk endpoints:{endpoints or ' none'}"
    )


def _looks(datas: list[bytes]) -> str:
    """How the bytes of an endpoint begin, to guess its class by."""
    carrying = [data for data in datas if data]
    starts = Counter(data[:4].hex(" ") for data in carrying)
    common = f", mostly from {starts.most_common(1)[0][0]} on" if starts else ""
    return f"{len(carrying)} requests with bytes{common}"


def lanes_of(capture: Capture, function: Function, request_size: int | None) -> list[Lane]:
    """The two lanes of a function, with the transfers that their requests make."""
    requests = {"out": Requests(function.out), "in": Requests(function.back, request_size)}
    for record in capture.records:
        lane = function.lane_of(record) if record.kind == Kind.BULK else None
        if lane:
            requests[lane].add(record)
    pieces = {lane: requests[lane].close() for lane in LANES}
    wire = _class_of(function, [piece for lane in LANES for piece in pieces[lane]])
    lanes = [Lane(name, function, wire, requests[name]) for name in LANES]
    for lane in lanes:
        lane.transfers = [(transfer, None) for transfer in assemble(wire, pieces[lane.name])]
    return lanes


def _class_of(function: Function, pieces: list[Piece]) -> WireClass:
    """The class, by the first transfer that has a signature where the descriptors leave it open."""
    if len(function.choices) > 1:
        told = (by_signature(function.choices, piece.data) for piece in pieces)
        chosen = next((wire for wire in told if wire), None)
        function.source += ", format by the transfers" if chosen else ", format not told and taken for the first: --class says another"
        return chosen or function.choices[0]
    return function.choices[0]


def decode(lanes: list[Lane], program: Program) -> None:
    """Has each whole transfer decoded."""
    verdicts = program.decode((lane.wire.name, transfer.data) for lane in lanes for transfer, _ in lane.transfers if not transfer.problem)
    for lane in lanes:
        lane.transfers = [
            (transfer, None if transfer.problem else verdicts[lane.wire.name, transfer.data]) for transfer, _ in lane.transfers
        ]


def around(data: bytes, place: int) -> str:
    """The bytes around a place, which is in brackets."""
    first = max(0, place - BEFORE)
    shown = [f"{byte:02x}" for byte in data[first : place + BEHIND]]
    if place < len(data):
        shown[place - first] = f"[{shown[place - first]}]"
    else:
        shown.append("[end]")
    return ("" if first == 0 else ".. ") + " ".join(shown) + (" .." if place + BEHIND < len(data) else "")


def fault_line(lane: Lane, transfer: Transfer, verdict: Verdict | None) -> str:
    head = f"fault packet {transfer.packet} endpoint {lane.endpoint:#04x}"
    if verdict is None:
        return f"{head} {transfer.problem}"
    packet, place = transfer.where(verdict.place)
    part = f", byte {place} of packet {packet}'s data" if len(transfer.pieces) > 1 else ""
    return f"{head} {verdict.fault} at {verdict.place}{part}: {around(transfer.data, verdict.place)}"


def report(capture: Capture, lanes: list[Lane], program: Program, out: TextIO) -> None:
    """Prints what was found: the capture, each function and its lanes, and the faulty transfers in the capture's order."""
    kinds = ", ".join(f"{LINK_TYPES.get(kind, 'other')} ({kind})" for kind in sorted(capture.kinds))
    print(f"capture {capture.name}: {capture.packets} packets, {kinds}", file=out)
    print(f"program {program.told}", file=out)
    for lane in lanes:
        function = lane.function
        if lane.name == "out":
            device = "any device" if function.device is None else f"device {function.bus}.{function.device}"
            ends = f"out {function.out.address:#04x}, in {function.back.address:#04x}, packets of {function.out.packet} bytes"
            print(f"function {device}, {lane.wire.name}, {ends}: {function.source}", file=out)
        print(_lane_line(lane), file=out)
    faulty = sorted(((transfer.packet, fault_line(lane, transfer, verdict)) for lane in lanes for transfer, verdict in lane.faulty()))
    for _, line in faulty:
        print(line, file=out)


def _lane_line(lane: Lane) -> str:
    frames = sum(len(verdict.frames) for _, verdict in lane.transfers if verdict)
    commands = sum(verdict.commands for _, verdict in lane.transfers if verdict)
    told = f"lane {lane.name} transfers {len(lane.transfers)} frames {frames} commands {commands} faulty {len(lane.faulty())}"
    return f"{told} withdrawn {lane.requests.withdrawn} unseen {lane.requests.unseen}"


def frames_of(lanes: list[Lane]) -> Iterator[tuple[int, Transfer, bytes]]:
    """The frames in the capture's order, each with its lane's index and its transfer."""
    found = [(transfer.packet, index, transfer, verdict) for index, lane in enumerate(lanes) for transfer, verdict in lane.transfers if verdict]
    for _, index, transfer, verdict in sorted(found, key=lambda one: one[:2]):
        for frame in verdict.frames:
            yield index, transfer, frame


def write_frames(name: str, lanes: list[Lane]) -> None:
    """Writes the frames as a pcapng: an interface for each lane, and the packet of the USB capture as each frame's comment."""
    interfaces = [Interface(ETHERNET, lane.name, f"{lane.wire.name}, endpoint {lane.endpoint:#04x}") for lane in lanes]
    with open(name, "wb") as out:
        writer = Writer(out, interfaces, "usbnet from-capture")
        for index, transfer, frame in frames_of(lanes):
            writer.packet(index, transfer.time, frame, f"USB packet {transfer.packet}")


def run(asked: argparse.Namespace, out: TextIO) -> int:
    capture = read_records(asked.capture)
    lanes = [lane for function in functions_of(capture, asked) for lane in lanes_of(capture, function, asked.request)]
    program = Program.find(asked.program)
    decode(lanes, program)
    report(capture, lanes, program, out)
    if asked.output:
        write_frames(asked.output, lanes)
    return FAULTY if any(lane.faulty() for lane in lanes) else CLEAN


def main() -> int:
    try:
        return run(arguments().parse_args(), sys.stdout)
    except (OSError, EOFError, CaptureError, ProgramError, Trouble) as trouble:
        print(f"from-capture: {trouble}", file=sys.stderr)
        return FAILED
