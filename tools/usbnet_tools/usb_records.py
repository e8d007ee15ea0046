"""What a packet of usbmon or of USBPcap says of a USB request. Not proved.

usbmon's headers: Documentation/usb/usbmon.rst of Linux, link types 189 (48 bytes) and 220 (64 bytes). USBPcap's: USBPcap.h of USBPcap,
link type 249.
"""
from __future__ import annotations

import struct
from dataclasses import dataclass
from enum import Enum

from .capture_file import USBMON, USBMON_MAPPED, USBPCAP, CaptureError, Packet

LINK_TYPES = {USBMON: "usbmon", USBMON_MAPPED: "usbmon", USBPCAP: "USBPcap"}
URB_ZERO_PACKET = 0x40
USBPCAP_SETUP_STAGE = b"\x00"
# Linux's words for what ended a request, and whether the host itself withdrew it
LINUX_STATUS = {
    -2: ("ENOENT", True), -18: ("EXDEV", False), -32: ("EPIPE", False), -62: ("ETIME", False), -71: ("EPROTO", False),
    -75: ("EOVERFLOW", False), -84: ("EILSEQ", False), -104: ("ECONNRESET", True), -108: ("ESHUTDOWN", True), -110: ("ETIMEDOUT", False),
    -121: ("EREMOTEIO", False),
}
WINDOWS_STATUS = {
    0xC0000004: ("stall", False), 0xC0000005: ("no answer", False), 0xC0000008: ("data overrun", False),
    0xC0000009: ("data underrun", False), 0xC000000C: ("buffer overrun", False), 0xC0010000: ("cancelled", True),
}


class Kind(Enum):
    """The kinds of transfer, by usbmon's and USBPcap's number."""

    ISOCHRONOUS = 0
    INTERRUPT = 1
    CONTROL = 2
    BULK = 3


@dataclass(frozen=True)
class Record:
    """One event of a USB request: its submission by the host, or its completion."""

    packet: int
    time: int
    request: int
    is_completion: bool
    kind: Kind
    bus: int
    device: int
    endpoint: int
    """Its address, with bit 7 where it is of the direction to the host."""
    length: int | None
    """Bytes: those asked for at the submission, those transferred at the completion; `None` where the capture doesn't tell."""
    data: bytes
    is_cut: bool
    """Whether the capture has fewer bytes than this event carried."""
    setup: bytes = b""
    failure: str = ""
    """What ended the request, empty where it went well."""
    is_withdrawn: bool = False
    """Whether it was the host that took it back."""
    ends_short: bool | None = None
    """Whether the host ends a transfer of whole packets with an empty one; `None` where the capture doesn't tell."""

    @property
    def key(self) -> tuple[int, int, int]:
        return self.bus, self.device, self.request


def read_record(packet: Packet) -> Record | None:
    """The record of a packet; `None` of one that isn't of a bulk or control request."""
    link_type = packet.interface.link_type
    if link_type in (USBMON, USBMON_MAPPED):
        return _usbmon(packet, 64 if link_type == USBMON_MAPPED else 48)
    if link_type == USBPCAP:
        return _usbpcap(packet)
    return None


def _usbmon(packet: Packet, size: int) -> Record | None:
    if len(packet.data) < size:
        raise CaptureError(f"packet {packet.number} has {len(packet.data)} bytes, and usbmon's header {size}")
    fields = struct.unpack(packet.byte_order + "QBBBBHBBqiiII8s", packet.data[:48])
    request, event, kind, endpoint, device, bus, no_setup, no_data, _, _, status, length, captured, setup = fields
    if kind not in (Kind.CONTROL.value, Kind.BULK.value):
        return None
    is_completion = event != ord("S")
    carries = bool(endpoint & 0x80) == is_completion if kind == Kind.BULK.value else no_data == 0
    data = packet.data[size : size + captured] if carries and no_data == 0 else b""
    failed = status != 0 if event == ord("C") else event == ord("E")
    name, withdrawn = LINUX_STATUS.get(status, ("", False))
    flags = struct.unpack(packet.byte_order + "I", packet.data[56:60])[0] if size == 64 else None
    return Record(
        packet.number, packet.time, request, is_completion, Kind(kind), bus, device, endpoint, length, data,
        is_cut=carries and len(data) < length,
        setup=setup if no_setup == 0 and not is_completion else b"",
        failure=f"{name} {status}".strip() if failed else "",
        is_withdrawn=failed and withdrawn,
        ends_short=None if flags is None else bool(flags & URB_ZERO_PACKET),
    )


def _usbpcap(packet: Packet) -> Record | None:
    if len(packet.data) < 27:
        raise CaptureError(f"packet {packet.number} has {len(packet.data)} bytes, and USBPcap's header 27")
    size, request, status, _, info, bus, device, endpoint, kind, length = struct.unpack("<HQIHBHHBBI", packet.data[:27])
    if kind not in (Kind.CONTROL.value, Kind.BULK.value):
        return None
    is_completion, setup, data = bool(info & 1), b"", packet.data[size : size + length]
    is_cut = len(data) < length
    if kind == Kind.CONTROL.value and packet.data[27:28] == USBPCAP_SETUP_STAGE:
        setup, data = data[:8], data[8:]
    carries = bool(endpoint & 0x80) == is_completion
    name, withdrawn = WINDOWS_STATUS.get(status, ("", False))
    failed = is_completion and status != 0
    return Record(
        packet.number, packet.time, request, is_completion, Kind(kind), bus, device, endpoint, length if carries or length else None, data,
        is_cut=is_cut,
        setup=setup,
        failure=f"{name} {status:#010x}".strip() if failed else "",
        is_withdrawn=failed and withdrawn,
    )
