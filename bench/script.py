#!/usr/bin/env python3
"""Times the reading of a script of 16 MiB beside a plain hex round trip of the same bytes, or beside another build of the program.

Needs the proved build (./usbnet --build) and coreutils' basenc. The script's last line is refused, so that `usbnet serial` reads all
of it, keeps every frame, and then runs nothing. Prints the best of five times of the program and of a round trip of the script's bytes
through hexadecimal digits (bytes to digits and back to bytes), and the peak memory of both. With the path of another build as its
argument it times the two builds by turns, as serial.py does.
"""
import os
import sys
import tempfile

import serial

FRAMES = 5527
LENGTH = 1514


def main():
    if not os.access(serial.BINARY, os.X_OK):
        sys.exit("no proved build: run ./usbnet --build first")
    with tempfile.TemporaryDirectory() as room:
        script, told = (os.path.join(room, name) for name in ("script", "told"))
        frame = serial.HEADER + "00" * (LENGTH - 14)
        serial.write(script, "class ecm\n", f"out 0 {frame}\n", FRAMES)
        with open(script, "a") as out:
            out.write("at out 0 resume\n")
        if len(sys.argv) > 1:
            other = os.path.join(room, "other")
            return print(serial.compare(["serial"], (sys.argv[1], serial.BINARY), script, (other, told), 5))
        spent, peak = serial.best([serial.BINARY, "serial"], script, told, 5)
        with open(told) as answer:
            if answer.read() != f"bad script {FRAMES + 2} control\n":
                sys.exit("another answer")
        plain, least = serial.best(["sh", "-c", "basenc --base16 -w0 | basenc --base16 -d"], script, os.devnull)
        size = os.path.getsize(script)
        print(f"{FRAMES:,} frames of {LENGTH:,} bytes: {size:,} bytes; read {spent * 1000:.0f} ms, {peak / 1024:.0f} MB; hex round trip {plain * 1000:.0f} ms, {least / 1024:.0f} MB")


if __name__ == "__main__":
    main()
