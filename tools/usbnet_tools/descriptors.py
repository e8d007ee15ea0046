"""The network functions of a device: what its descriptors and the requests to it say. Not proved.

Descriptors: USB 2.0, 9.6; the functional descriptors of CDC 1.2, 5.2.3; SET_NTB_FORMAT: NCM 1.0, 6.2.5.
"""
from __future__ import annotations

from dataclasses import dataclass, field
from typing import Iterable, Iterator

from .classes import OTHER_FUNCTIONS, WireClass, class_named, classes_of
from .usb_records import Kind, Record

CONFIGURATION, INTERFACE, ENDPOINT, FUNCTIONAL = 2, 4, 5, 0x24
UNION_SUBTYPE = 6
BULK = 2
# the first two bytes of a set-up packet
GET_DESCRIPTOR = bytes.fromhex("8006")
SET_CONFIGURATION = bytes.fromhex("0009")
SET_NTB_FORMAT = bytes.fromhex("2184")
NTB_FORMATS = {0: "ncm16", 1: "ncm32"}


@dataclass
class Endpoint:
    """A bulk endpoint: its address, with bit 7 where it is to the host, and the bytes of a full packet."""

    address: int
    packet: int


@dataclass
class Setting:
    """An alternate setting of an interface."""

    number: int
    kind: tuple[int, int, int]
    union: list[int] = field(default_factory=list)
    endpoints: list[Endpoint] = field(default_factory=list)


@dataclass
class Function:
    """A network function: where it is, its endpoints, and the classes that it may speak."""

    bus: int | None
    device: int | None
    out: Endpoint
    back: Endpoint
    choices: list[WireClass]
    source: str
    """What told of it."""

    def lane_of(self, record: Record) -> str | None:
        """`out` or `in`, where the record is of one of its endpoints."""
        if self.device not in (None, record.device) or self.bus not in (None, record.bus):
            return None
        return {self.out.address: "out", self.back.address: "in"}.get(record.endpoint)


@dataclass
class Control:
    """A control transfer that went well."""

    packet: int
    device: tuple[int, int]
    setup: bytes
    data: bytes


def controls_of(records: Iterable[Record]) -> Iterator[Control]:
    """The control transfers of a capture, each at its completion."""
    begun: dict[tuple[int, int, int], Record] = {}
    read: dict[tuple[int, int, int], bytes] = {}
    for record in records:
        if record.kind != Kind.CONTROL:
            continue
        if record.setup:
            begun[record.key] = record
        elif record.is_completion and record.key in begun:
            # USBPcap of old gives the bytes in one packet and the end in another
            data = read.pop(record.key, b"") + record.data
            first = begun[record.key]
            if not record.failure:
                yield Control(record.packet, (record.bus, record.device), first.setup, data or first.data)
                read[record.key] = data


def settings_of(data: bytes) -> list[Setting]:
    """The settings of a configuration's interfaces, as far as the bytes go."""
    found: list[Setting] = []
    place = 0
    while place + 2 <= len(data) and data[place] >= 2:
        one = data[place : place + data[place]]
        if one[1] == INTERFACE and len(one) >= 9:
            found.append(Setting(one[2], (one[5], one[6], one[7])))
        elif one[1] == ENDPOINT and len(one) >= 7 and one[3] & 3 == BULK and found:
            # a full packet has no fewer than 8 bytes: another number is of damaged descriptors, and only the packet's end counts then
            found[-1].endpoints.append(Endpoint(one[2], max(8, int.from_bytes(one[4:6], "little") & 0x7FF)))
        elif one[1] == FUNCTIONAL and len(one) >= 5 and one[2] == UNION_SUBTYPE and found:
            found[-1].union = list(one[3:])
        place += data[place]
    return found


def _data_setting(settings: list[Setting], control: Setting) -> Setting | None:
    """The setting that has the function's bulk endpoints: of the control interface itself (EEM), or of the union's other one."""
    subordinate = control.union[1] if len(control.union) > 1 else control.number + 1
    for number in (control.number, subordinate):
        for setting in settings:
            directions = {endpoint.address & 0x80 for endpoint in setting.endpoints}
            if setting.number == number and directions == {0, 0x80}:
                return setting
    return None


def functions_in(data: bytes, bus: int | None, device: int | None, source: str) -> list[Function]:
    """The network functions of a configuration."""
    settings = settings_of(data)
    found: dict[int, Function] = {}
    for control in settings:
        choices = classes_of(control.kind)
        bulk = _data_setting(settings, control) if choices else None
        if bulk and control.number not in found:
            ends = {endpoint.address & 0x80: endpoint for endpoint in reversed(bulk.endpoints)}
            found[control.number] = Function(bus, device, ends[0], ends[0x80], choices, source)
    return list(found.values())


def others_in(data: bytes) -> set[str]:
    """The names of network functions that the program doesn't decode."""
    return {OTHER_FUNCTIONS[setting.kind] for setting in settings_of(data) if setting.kind in OTHER_FUNCTIONS}


@dataclass
class Found:
    """The functions of a capture, and the names of those that can't be decoded."""

    functions: list[Function] = field(default_factory=list)
    others: set[str] = field(default_factory=set)


def find_functions(records: Iterable[Record]) -> Found:
    """Looks through the control transfers of a capture."""
    configurations: dict[tuple[int, int], dict[int, Control]] = {}
    chosen: dict[tuple[int, int], int] = {}
    formats: dict[tuple[int, int], Control] = {}
    for control in controls_of(records):
        request, value = control.setup[:2], int.from_bytes(control.setup[2:4], "little")
        if request == GET_DESCRIPTOR and value >> 8 == CONFIGURATION:
            known = configurations.setdefault(control.device, {})
            if value & 0xFF not in known or len(control.data) > len(known[value & 0xFF].data):
                known[value & 0xFF] = control
        elif request == SET_CONFIGURATION:
            chosen[control.device] = value
        elif request == SET_NTB_FORMAT:
            formats[control.device] = control
    found = Found()
    for device, known in configurations.items():
        for control in _set_one(list(known.values()), chosen.get(device)):
            for function in functions_in(control.data, *device, f"descriptors in packet {control.packet}"):
                found.functions.append(_with_format(function, formats.get(device)))
            found.others |= others_in(control.data)
    return found


def _set_one(configurations: list[Control], value: int | None) -> list[Control]:
    """The configuration that was set, where the capture tells; else each."""
    return [one for one in configurations if one.data[5:6] == bytes([(value or 0) & 0xFF])] or configurations


def _with_format(function: Function, request: Control | None) -> Function:
    """An NCM function speaks the format that it was set to last."""
    name = NTB_FORMATS.get(int.from_bytes(request.setup[2:4], "little")) if request else None
    if request and name and class_named(name) in function.choices:
        function.choices = [class_named(name)]
        function.source += f", format set in packet {request.packet}"
    return function
