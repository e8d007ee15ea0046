#!/usr/bin/env python3
"""Times `usbnet decode` on transfers of 16 MiB beside a plain hex dump and a plain copy of the same bytes.

Needs the proved build (./usbnet --build) and coreutils' basenc and cat. Prints, for each transfer, its size, the best of five times
of the program, of the dump and of the copy, and the program's peak memory. What the program prints is compared with the text that
this script makes of the same frames.

With the path of another build as its argument it times the two builds by turns, as bench/serial.py does.
"""
import filecmp
import multiprocessing
import os
import struct
import sys
import tempfile

from serial import BINARY, HEADER, best, compare

MOST = 16_777_216
PAIRS = 8188  # of one table of 65,528 bytes, but for its last


def frames_of(count, length):
    header = bytes.fromhex(HEADER)
    return [header + (b"%08x" % index + bytes(length - 22)) for index in range(count)]


def eem(frames):
    return b"".join(struct.pack("<H", len(frame) + 4) + frame + b"\xde\xad\xbe\xef" for frame in frames)


def rndis(frames):
    return b"".join(struct.pack("<IIII", 1, len(frame) + 44, 36, len(frame)) + bytes(28) + frame for frame in frames)


def ncm32(frames):
    """A block with its tables behind its frames."""
    places, end = [], 16
    for frame in frames:
        places.append((end, len(frame)))
        end += len(frame)
    end += -end % 4
    first, tables = end, []
    for front in range(0, len(places), PAIRS):
        pairs = places[front : front + PAIRS]
        size = 16 + 8 * (len(pairs) + 1)
        end += size
        following = end if front + PAIRS < len(places) else 0
        tables.append(b"ncm0" + struct.pack("<HHII", size, 0, following, 0) + b"".join(struct.pack("<II", *pair) for pair in pairs) + bytes(8))
    head = b"ncmh" + struct.pack("<HHII", 16, 0, end, first)
    body = head + b"".join(frames)
    return body + bytes(first - len(body)) + b"".join(tables)


def text_of(name, frames):
    lines = "".join(f"frame {index} {len(frame)} {frame.hex()}\n" for index, frame in enumerate(frames))
    return f"class {name}\nframes {len(frames)}\n{lines}commands 0\n"


def write_files(name, length, transfer, wanted):
    """Writes a transfer of frames of this length, and the text that it is decoded to."""
    frames = frames_of((MOST - 4096) // (length + CLASSES[name][1]), length)
    with open(transfer, "wb") as out:
        out.write(CLASSES[name][0](frames))
    with open(wanted, "w") as out:
        out.write(text_of(name, frames))


# how a transfer is made, and its bytes for each frame beside the frame
CLASSES = {"ncm32": (ncm32, 8), "eem": (eem, 6), "rndis": (rndis, 44)}


def alone(name, transfer, wanted, taken):
    """This build's time and peak memory, and the times of the dump and the copy."""
    spent, peak = best([BINARY, "decode", name], transfer, taken)
    if not filecmp.cmp(taken, wanted, shallow=False):
        sys.exit(f"another text of {name}")
    dump, _ = best(["basenc", "--base16", "-w0"], transfer, taken)
    copy, _ = best(["cat"], transfer, taken)
    return f"decode {spent * 1000:.0f} ms, {peak / 1024:.0f} MB; hex dump {dump * 1000:.0f} ms; copy {copy * 1000:.0f} ms"


def main():
    if not os.access(BINARY, os.X_OK):
        sys.exit("no proved build: run ./usbnet --build first")
    with tempfile.TemporaryDirectory() as room:
        transfer, wanted, taken, other = (os.path.join(room, name) for name in ("transfer", "wanted", "taken", "other"))
        for name in CLASSES:
            for length in (1514, 60):
                # in a process of its own: a child's peak memory begins with its parent's
                maker = multiprocessing.Process(target=write_files, args=(name, length, transfer, wanted))
                maker.start()
                maker.join()
                if len(sys.argv) > 1:
                    told = compare(["decode", name], (sys.argv[1], BINARY), transfer, (other, taken))
                else:
                    told = alone(name, transfer, wanted, taken)
                print(f"{name}, frames of {length:,} bytes, {os.path.getsize(transfer):,} bytes in: {told}", flush=True)


if __name__ == "__main__":
    main()
