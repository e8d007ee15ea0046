#!/usr/bin/env python3
"""Asks the usbnet program for its verdict on each transfer of the stored captures, and keeps them for the double `stored_program`.

    record_verdicts.py PROGRAM      with the path of a proved build
"""
from __future__ import annotations

import argparse
import hashlib
import json
import subprocess
import sys
from pathlib import Path
from typing import Iterator

HERE = Path(__file__).resolve().parent
STORED = HERE / "stored"
sys.path.insert(0, str(HERE.parent))

from usbnet_tools.from_capture import arguments, functions_of, lanes_of, read_records  # noqa: E402

# the captures that the tests decode, and the options that they need
DECODED = {
    "eem-189.pcap": [], "ecm-usbpcap.pcap": [], "ncm32-220.pcap": [], "sleep-and-unplug.pcapng": [], "three-pings.pcapng": [],
    "no-descriptors-220.pcap": ["--class", "ecm", "--out", "3", "--in", "0x84"],
}


def transfers() -> Iterator[tuple[str, bytes]]:
    """The class and the bytes of each whole transfer of the stored captures."""
    for name, options in DECODED.items():
        asked = arguments().parse_args([str(STORED / name), *options])
        capture = read_records(asked.capture)
        for function in functions_of(capture, asked):
            for lane in lanes_of(capture, function, asked.request):
                yield from ((lane.wire.name, transfer.data) for transfer, _ in lane.transfers if not transfer.problem)


def ask(program: str, wire: str, data: bytes) -> tuple[int, str]:
    """What the program ends with and prints."""
    done = subprocess.run([program, "decode", wire], input=data, capture_output=True)
    return done.returncode, done.stdout.decode("ascii")


def verdicts_of(program: str) -> dict[str, tuple[int, str]]:
    return {f"{wire} {hashlib.sha256(data).hexdigest()}": ask(program, wire, data) for wire, data in dict.fromkeys(transfers())}


def main() -> None:
    parser = argparse.ArgumentParser(description=__doc__.split("\n", 1)[0])
    parser.add_argument("program", help="a proved build of usbnet")
    found = verdicts_of(parser.parse_args().program)
    (STORED / "verdicts.json").write_text(json.dumps(found, indent=0, sort_keys=True) + "\n")


if __name__ == "__main__":
    main()
