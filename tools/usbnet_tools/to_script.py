"""The tool to-script: a capture of Ethernet frames as a script. Not proved."""
from __future__ import annotations

import argparse
import sys
from dataclasses import dataclass, field
from typing import Callable, Hashable

from . import NOT_PROVED
from .capture_file import ETHERNET, INBOUND, OUTBOUND, CaptureError, Packet, read_capture
from .classes import NAMES
from .script import DEFAULT_SEGMENT, MOST_BYTES, MOST_FRAMES, MOST_SEGMENT, SENDERS
from .trace import LANES

TCP, UDP = 6, 17
IPV4, IPV6 = b"\x08\x00", b"\x86\xdd"
EPILOG = """\
The lane: a frame is outward where its interface is named `out` (from-capture writes such), where its source is a --host address, or
where the capture says that it was sent. Where it tells nothing of this, the source of the first frame is taken for the host's.
The sender: the sources, or with --by flow the flows, of a lane get the numbers 0 to 3 as they come, and then 0 to 3 again. A sender's
frames keep their order; the link may exchange those of two senders.
"""


class Trouble(Exception):
    """What keeps the tool from writing a script."""


def _mac(text: str) -> bytes:
    return bytes.fromhex(text.replace(":", "").replace("-", "")).rjust(6, b"\0")


def by_source(frame: bytes) -> Hashable:
    return frame[6:12]


def by_flow(frame: bytes) -> Hashable:
    """The addresses of a frame, and those and the ports of what is in it."""
    head, rest = frame[:14], frame[14:]
    if frame[12:14] == IPV4 and len(rest) >= 20:
        protocol, addresses, ports = rest[9], rest[12:20], rest[(rest[0] & 15) * 4 :][:4]
    elif frame[12:14] == IPV6 and len(rest) >= 40:
        protocol, addresses, ports = rest[6], rest[8:40], rest[40:44]
    else:
        return head
    return head, protocol, addresses, ports if protocol in (TCP, UDP) else b""


KEYS: dict[str, Callable[[bytes], Hashable]] = {"source": by_source, "flow": by_flow}


@dataclass
class Frames:
    """The frames of a capture as lines of a script."""

    key: Callable[[bytes], Hashable]
    hosts: list[bytes]
    warn: Callable[[str], None]
    lines: list[str] = field(default_factory=list)
    longest: int = 0
    senders: dict[str, dict] = field(default_factory=lambda: {lane: {} for lane in LANES})

    def add(self, packet: Packet) -> None:
        if len(packet.data) < packet.length:
            return self.warn(f"packet {packet.number} is left out: the capture has {len(packet.data)} of its {packet.length} bytes")
        if not 0 < packet.length <= MOST_SEGMENT:
            return self.warn(f"packet {packet.number} is left out: it has {packet.length} bytes, and a frame at most {MOST_SEGMENT}")
        lane = self._lane(packet)
        known = self.senders[lane]
        sender = known.setdefault(self.key(packet.data), len(known) % SENDERS)
        self.longest = max(self.longest, packet.length)
        self.lines.append(f"{lane} {sender} {packet.data.hex()}\n")

    def _lane(self, packet: Packet) -> str:
        source = packet.data[6:12]
        if not self.hosts:
            if packet.interface.name in LANES:
                return packet.interface.name
            if packet.direction in (INBOUND, OUTBOUND):
                return "out" if packet.direction == OUTBOUND else "in"
            self.hosts.append(source)
            self.warn(f"{source.hex(':')}, the source of packet {packet.number}, is taken for the host's address: --host says another")
        return "out" if source in self.hosts else "in"


def script_of(frames: Frames, wire: str, lines: list[str]) -> str:
    """The script of the frames, with further lines of parameters."""
    if not frames.lines:
        raise Trouble("no Ethernet frames in it; from-capture -o makes a capture of frames of a capture of USB")
    if len(frames.lines) > MOST_FRAMES:
        raise Trouble(f"{len(frames.lines):,} frames, and a script has at most {MOST_FRAMES:,}: --most takes the first ones")
    segment = [f"segment {frames.longest}\n"] if frames.longest > DEFAULT_SEGMENT else []
    text = "".join([f"class {wire}\n", *segment, *(f"{line}\n" for line in lines), *frames.lines])
    if len(text) > MOST_BYTES:
        raise Trouble(f"the script has {len(text):,} bytes, and the program takes {MOST_BYTES:,}: --most takes the first frames")
    return text


def arguments() -> argparse.ArgumentParser:
    parser = argparse.ArgumentParser(
        prog="to-script",
        description=f"Writes a capture of Ethernet frames as a script, by lane and sender. {NOT_PROVED}",
        epilog=EPILOG,
        formatter_class=argparse.RawDescriptionHelpFormatter,
    )
    parser.add_argument("capture", nargs="?", default="-", help="a pcap or pcapng with Ethernet frames; standard input without it")
    parser.add_argument("-o", "--output", metavar="FILE", help="the script to write; standard output without it")
    parser.add_argument("--class", dest="wire", choices=NAMES, default=NAMES[0], help=f"the script's class ({NAMES[0]})")
    parser.add_argument("--host", type=_mac, action="append", default=[], metavar="MAC", help="an address of the host's side; several may be given")
    parser.add_argument("--by", choices=KEYS, default="source", help="what a sender is (source)")
    parser.add_argument("--most", type=int, metavar="N", help="the first N frames alone")
    parser.add_argument("--line", action="append", default=[], metavar="LINE", help="a further parameter, as 'requests 2 2 2 2'; in a script's order")
    return parser


def read_frames(asked: argparse.Namespace, warn: Callable[[str], None]) -> Frames:
    frames = Frames(KEYS[asked.by], list(asked.host), warn)
    with sys.stdin.buffer if asked.capture == "-" else open(asked.capture, "rb") as stream:
        for packet in read_capture(stream, warn):
            if packet.interface.link_type == ETHERNET and (asked.most is None or len(frames.lines) < asked.most):
                frames.add(packet)
    return frames


def main() -> int:
    asked = arguments().parse_args()
    try:
        text = script_of(read_frames(asked, lambda text: print(f"to-script: {text}", file=sys.stderr)), asked.wire, asked.line)
        if asked.output:
            with open(asked.output, "w", encoding="ascii") as out:
                out.write(text)
        else:
            sys.stdout.write(text)
        return 0
    except (OSError, EOFError, CaptureError, Trouble) as trouble:
        print(f"to-script: {trouble}", file=sys.stderr)
        return 2
