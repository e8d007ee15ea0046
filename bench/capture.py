#!/usr/bin/env python3
"""Times `tools/from-capture` on captures of usbmon whose transfers all differ, so that the program is started for each.

Needs the proved build (./usbnet --build), or another by --program. Prints, for each capture, its size, and the time from begin to end with
the frames written.
"""
import argparse
import os
import subprocess
import sys
import tempfile
import time

TOP = os.path.dirname(os.path.dirname(os.path.abspath(__file__)))
sys.path.insert(0, os.path.join(TOP, "tools", "tests"))
import make_captures  # noqa: E402

COUNT = 10_000


def blocks(count, frames, length):
    """So many NCM blocks of so many frames, every other one inward; each has bytes of its own."""
    made = make_captures.Usbmon(220, "<")
    made.control(make_captures.DESCRIPTOR_REQUEST, make_captures.descriptors(0x0D, 0x02, 0x81))
    made.control(make_captures.SET_NTB32, None)
    whole = [make_captures.frame(index, length) for index in range(frames)]
    for serial in range(count):
        block = make_captures.ncm32(*whole, serial=serial)
        if serial % 2:
            made.in_data(0x81, block, asked=65536)
        else:
            made.out_data(0x02, block)
    return made.out.getvalue()


def main():
    parser = argparse.ArgumentParser(description=__doc__.split("\n", 1)[0])
    parser.add_argument("--program", help="the program, where it isn't this repository's build")
    asked = parser.parse_args()
    options = ["--program", asked.program] if asked.program else []
    with tempfile.TemporaryDirectory() as room:
        capture, frames = os.path.join(room, "capture.pcap"), os.path.join(room, "frames.pcapng")
        for count, length in ((1, 60), (4, 1514)):
            with open(capture, "wb") as out:
                out.write(blocks(COUNT, count, length))
            begin = time.perf_counter()
            subprocess.run([os.path.join(TOP, "tools", "from-capture"), capture, "-o", frames, *options], check=True, stdout=subprocess.DEVNULL)
            spent = time.perf_counter() - begin
            size = os.path.getsize(capture)
            print(f"{COUNT:,} transfers of {count} frames of {length:,} bytes: {size:,} bytes in; {spent:.1f} s", flush=True)


if __name__ == "__main__":
    main()
