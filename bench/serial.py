#!/usr/bin/env python3
"""Times `usbnet serial` on large scripts beside a plain hex round trip of the same frames, or beside another build of the program.

Needs the proved build (./usbnet --build) and coreutils' basenc. Prints, for each script, its size and that of the output, the best of
five times of the program and of the round trip (the frames' digits to bytes and back to digits), and the peak memory of both.
The scripts grow, so that the cost for each frame can be compared.

With the path of another build as its argument it times the two builds by turns, seven times each, and prints for each the best time,
the median and the least time that its processor was busy with it, and the ratio of these. Both have to print the same.
"""
import filecmp
import os
import statistics
import subprocess
import sys
import tempfile
import time

TOP = os.path.dirname(os.path.dirname(os.path.abspath(__file__)))
BINARY = os.path.join(TOP, "crates", "usbnet", "out", "usbnet")
HEADER = "0200000000020200000000010800"
SCRIPTS = [
    ("1,024 frames of 60 bytes", 1024, 60),
    ("8,192 frames of 60 bytes", 8192, 60),
    ("65,536 frames of 60 bytes", 65536, 60),
    ("5,527 frames of 1,514 bytes", 5527, 1514),
]
# what two builds are compared on: the name, the lines before the frames, how many frames, and their length
COMPARED = [
    ("65,536 frames of 60 bytes, ncm16, pools of 8", "class ncm16\n", 65536, 60),
    ("65,536 frames of 60 bytes, ncm16, pools of 64", "class ncm16\nrequests 64 64 64 64\n", 65536, 60),
    ("65,536 frames of 60 bytes, ecm, pools of 8", "class ecm\n", 65536, 60),
    ("65,536 frames of 60 bytes, ecm, pools of 64", "class ecm\nrequests 64 64 64 64\n", 65536, 60),
    ("5,527 frames of 1,514 bytes, ncm16", "class ncm16\n", 5527, 1514),
    ("5,527 frames of 1,514 bytes, ecm", "class ecm\n", 5527, 1514),
]
TIMES = 7


def write(name, head, piece, count):
    """A file of a head and so many pieces. Never in memory as a whole: a child's peak memory begins with its parent's."""
    with open(name, "w") as out:
        out.write(head)
        for _ in range(count):
            out.write(piece)


def measure(words, source, sink, wanted=0):
    """The seconds of one run, which has to end with the wanted status, and what it used of the machine."""
    with open(source, "rb") as given, open(sink, "wb") as taken:
        begin = time.perf_counter()
        child = subprocess.Popen(words, stdin=given, stdout=taken)
        _, status, usage = os.wait4(child.pid, 0)
        spent = time.perf_counter() - begin
    child.returncode = os.waitstatus_to_exitcode(status)
    if child.returncode != wanted:
        sys.exit(f"{words} ended with {child.returncode}")
    return spent, usage


def run(words, source, sink, wanted=0):
    """The seconds and the peak memory in KiB of one run, which has to end with the wanted status."""
    spent, usage = measure(words, source, sink, wanted)
    return spent, usage.ru_maxrss


def best(words, source, sink, wanted=0):
    """The least time and the greatest peak memory of five runs, one after the other."""
    runs = [run(words, source, sink, wanted) for _ in range(5)]
    return min(spent for spent, _ in runs), max(peak for _, peak in runs)


def figures(runs):
    """The best and the median of the runs' times, and the least time that a processor was busy with one, in milliseconds."""
    times = [spent * 1000 for spent, _ in runs]
    return min(times), statistics.median(times), min(usage.ru_utime + usage.ru_stime for _, usage in runs) * 1000


def compare(words, builds, script, texts, wanted=0):
    """Runs two builds by turns, and tells their figures and the ratios of the second's to the first's."""
    runs = [[], []]
    for _ in range(TIMES):
        for build, text, kept in zip(builds, texts, runs):
            kept.append(measure([build, *words], script, text, wanted))
    if not filecmp.cmp(*texts, shallow=False):
        sys.exit("the two builds print other texts")
    other, this = map(figures, runs)
    shown = ["best {:.0f}, median {:.0f}, busy {:.0f} ms".format(*found) for found in (other, this)]
    ratios = ", ".join(f"{new / old:.2f}" for old, new in zip(other, this))
    return f"{shown[0]}; this build {shown[1]}; ratios {ratios}"


def beside(other):
    with tempfile.TemporaryDirectory() as room:
        script, *texts = (os.path.join(room, name) for name in ("script", "other", "this"))
        for name, head, count, length in COMPARED:
            write(script, head, f"out 0 {HEADER}{'00' * (length - 14)}\n", count)
            print(f"{name}: {compare(['serial'], (other, BINARY), script, texts)}", flush=True)


def main():
    if not os.access(BINARY, os.X_OK):
        sys.exit("no proved build: run ./usbnet --build first")
    if len(sys.argv) > 1:
        return beside(sys.argv[1])
    with tempfile.TemporaryDirectory() as room:
        script, digits, trace = (os.path.join(room, name) for name in ("script", "digits", "trace"))
        for name, count, length in SCRIPTS:
            frame = HEADER + "00" * (length - 14)
            write(script, "class ecm\n", f"out 0 {frame}\n", count)
            write(digits, "", frame.upper(), count)
            spent, peak = best([BINARY, "serial"], script, trace)
            plain, least = best(["sh", "-c", "basenc --base16 -d | basenc --base16 -w0"], digits, os.devnull)
            size = os.path.getsize(script)
            print(f"{name}: {size:,} bytes in, {os.path.getsize(trace):,} out; serial {spent * 1000:.0f} ms, {peak / 1024:.0f} MB; hex round trip {plain * 1000:.0f} ms, {least / 1024:.0f} MB")


if __name__ == "__main__":
    main()
