#!/usr/bin/env python3
"""Times `usbnet run` and `usbnet load` beside `usbnet serial` of the same script.

Needs the proved build (./usbnet --build). The commands of a script run one after the other, so often as --runs says, in turn: what the
machine does meanwhile meets each of them. Prints for each command the least time, the median and the peak memory, and the ratio of its
times to those of `serial`. A load's script is the one that `load N` makes, so that `serial` reads it and writes its trace, which the
load doesn't; above 8,192 frames it is larger than a script may be, and nothing stands beside it.

    bench/run.py                       the machine as it is
    bench/run.py --busy 4              beside so many busy processes, which this script starts and ends
    bench/run.py --serial PROGRAM      the ratios to the `serial` of another build of the program
    bench/run.py --run PROGRAM         another build's `run` and `load` beside this one's
    bench/run.py --only long --runs 3  some of the scripts, by a word of their names
"""
import argparse
import os
import statistics
import subprocess
import sys
import tempfile

import serial

SCRIPTS = [
    ("one frame of 60 bytes", "class ncm16\n", 1, 60),
    ("8,192 frames of 60 bytes", "class ncm16\n", 8192, 60),
    ("8,192 frames of 60 bytes, pools of 64", "class ncm16\nrequests 64 64 64 64\n", 8192, 60),
    ("8,192 frames of 60 bytes, ecm", "class ecm\n", 8192, 60),
    ("65,536 frames of 60 bytes", "class ncm16\n", 65536, 60),
    ("65,536 frames of 60 bytes, pools of 64", "class ncm16\nrequests 64 64 64 64\n", 65536, 60),
    ("5,527 long frames of 1,514 bytes", "class ncm16\n", 5527, 1514),
]
LOADS = [("load 1000", 1000), ("load 8192", 8192), ("load 65536", 65536)]
# the destination, the source and the type of a load's frames
ADDRESSES = "0200000000010200000000020800"
# the most frames of a load whose script is no larger than a script may be
MOST_TOLD = 8192


def load_frame(number):
    """The frame of this number in a load: addresses and type, its number, and bytes that tell their places."""
    length = 60 + number % 1400
    return ADDRESSES + number.to_bytes(4, "big").hex() + bytes((number + place) % 256 for place in range(18, length)).hex()


def write_load(name, count):
    """The script of a load of so many frames."""
    with open(name, "w") as out:
        out.write("class ncm16\n")
        for number in range(count):
            out.write(f"{('out', 'in')[number % 2]} {number // 2 % 4} {load_frame(number)}\n")


class Busy:
    """So many processes that do nothing but run, from `with` on until its end."""

    def __init__(self, count):
        self.count, self.children = count, []

    def __enter__(self):
        self.children = [subprocess.Popen(["sh", "-c", "while :; do :; done"], start_new_session=True) for _ in range(self.count)]

    def __exit__(self, *_):
        for child in self.children:
            child.kill()
            child.wait()


def measure(commands, source, times):
    """For each command its runs, of which each is the seconds and the peak memory in KiB."""
    runs = [[] for _ in commands]
    for _ in range(times):
        for words, done in zip(commands, runs):
            done.append(serial.run(words, source, os.devnull))
    return runs


def tell(name, commands, source, times):
    told, base = [], None
    for (label, _), runs in zip(commands, measure([words for _, words in commands], source, times)):
        spent = [seconds for seconds, _ in runs]
        best, median, peak = min(spent), statistics.median(spent), max(peak for _, peak in runs)
        text = f"{label} {best * 1000:.1f} ms, median {median * 1000:.1f}, {peak / 1024:.0f} MB"
        if base is None:
            base = (best, median)
        else:
            text += f", ratio {best / base[0]:.2f}, of medians {median / base[1]:.2f}"
        told.append(text)
    print(f"{name}: " + "; ".join(told), flush=True)


def main():
    parser = argparse.ArgumentParser(description=__doc__.split("\n", 1)[0])
    parser.add_argument("--busy", type=int, default=0, help="so many busy processes beside it")
    parser.add_argument("--runs", type=int, default=7, help="the runs of each command")
    parser.add_argument("--serial", default=serial.BINARY, help="the program whose serial the ratios are to")
    parser.add_argument("--run", help="another program whose run and load are measured too")
    parser.add_argument("--only", default="", help="a word of the names of the scripts to measure")
    asked = parser.parse_args()
    programs = [("", serial.BINARY)] + ([("other ", asked.run)] if asked.run else [])
    for program in [asked.serial] + [program for _, program in programs]:
        if not os.access(program, os.X_OK):
            sys.exit(f"no program {program}: run ./usbnet --build first")
    with tempfile.TemporaryDirectory() as room, Busy(asked.busy):
        script = os.path.join(room, "script")
        for name, head, count, length in SCRIPTS:
            if asked.only in name:
                serial.write(script, head, f"out 0 {serial.HEADER}{'00' * (length - 14)}\n", count)
                commands = [("serial", [asked.serial, "serial"])] + [(f"{other}run", [program, "run"]) for other, program in programs]
                tell(name, commands, script, asked.runs)
        for name, count in LOADS:
            if asked.only in name:
                commands = [(f"{other}load", [program, "load", str(count)]) for other, program in programs]
                if count <= MOST_TOLD:
                    write_load(script, count)
                    commands.insert(0, ("serial", [asked.serial, "serial"]))
                tell(name, commands, script if count <= MOST_TOLD else os.devnull, asked.runs)


if __name__ == "__main__":
    main()
