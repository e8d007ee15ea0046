#!/usr/bin/env python3
"""Times a reading of a block by the C library beside a plain C reader of the same block (examples/c/plain_reader.h).

Needs a C compiler and the library (make -C c). Prints, for each block, its frames, the best of fifteen times by turns, and the ratios:
of the plain reader in one pass, which writes places before it has seen the whole block; of the same reader in two passes, which leaves
the array alone where the block has a fault, as the proved one does; and of the proved one. All find the same frames, or
bench/codec_c.c stops.
"""
import os
import subprocess
import sys
import tempfile

TOP = os.path.dirname(os.path.dirname(os.path.abspath(__file__)))
LIBRARY = os.path.join(TOP, "c", "out", "libusbnet_codec.a")
BLOCKS = [(1, 60), (32, 60), (10, 1514), (32, 1514), (1000, 60)]


def main():
    if not os.path.exists(LIBRARY):
        sys.exit("no library: make -C c")
    with tempfile.TemporaryDirectory() as folder:
        program = os.path.join(folder, "codec_c")
        flags = ["-std=c99", "-O2", "-Wall", "-Wextra", "-Werror", "-I" + os.path.join(TOP, "c")]
        subprocess.run([os.environ.get("CC", "cc"), *flags, os.path.join(TOP, "bench", "codec_c.c"), LIBRARY, "-o", program], check=True)
        for count, size in BLOCKS:
            told = subprocess.run([program, str(count), str(size)], check=True, capture_output=True, text=True).stdout
            plain, kept, proved = map(float, told.split())
            times = f"plain {plain:.1f} ns, in two passes {kept:.1f} ns, proved {proved:.1f} ns"
            print(f"{count} frames of {size} bytes: {times}, {proved / plain:.2f} and {proved / kept:.2f} times")


main()
