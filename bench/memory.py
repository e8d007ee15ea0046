#!/usr/bin/env python3
"""Refuses the program each of its allocations in turn, and shows that it ends with status 1 and the line `no memory`.

Needs the proved build (./usbnet --build) and a C compiler. For each command it refuses allocation 1, then 2 and so on, one a run, until
a run asks for no more. Each such run has to end with status 1 and `no memory` alone: so all memory is taken before the first byte of
output, and no refusal is passed over. The first few allocations make `main`'s list of words, before there is a sink: they end with
status 1 and print nothing. COMMANDS has how many there are of both kinds, and a count that differs fails: so a new allocation is looked
at before its row is changed.

Of `run` and `load` each thread takes memory, too, once all else was taken. Where that is refused the thread isn't made, another one does
its work, and the output is whole: a third number of COMMANDS. What the C library takes for a thread is told by its caller, which isn't
the program's code, and isn't counted, since it is the library's choice; it is refused too, with the same end.

The allocations are refused by a library that is loaded before the C library: it stands in front of its calls that take memory, counts
from just before `main`, answers the one whose number is asked for with null, and says so on standard error, where the program itself
writes nothing.
"""
import os
import subprocess
import sys
import tempfile
from typing import NamedTuple

import serial

REFUSES = r"""
#define _GNU_SOURCE
#include <errno.h>
#include <link.h>
#include <stdatomic.h>
#include <stddef.h>
#include <stdint.h>
#include <stdlib.h>
#include <unistd.h>

void *__libc_malloc(size_t);
void *__libc_calloc(size_t, size_t);
void *__libc_realloc(void *, size_t);
void *__libc_memalign(size_t, size_t);

enum { PROGRAM, OTHERS };

static atomic_long left[2];
static uintptr_t first = UINTPTR_MAX, last;

/* The first object is the program: where its segments lie. */
static int find_program(struct dl_phdr_info *info, size_t size, void *unused) {
    (void)size, (void)unused;
    for (int at = 0; at < info->dlpi_phnum; at++) {
        const ElfW(Phdr) *segment = &info->dlpi_phdr[at];
        if (segment->p_type != PT_LOAD) continue;
        uintptr_t from = info->dlpi_addr + segment->p_vaddr, to = from + segment->p_memsz;
        if (from < first) first = from;
        if (to > last) last = to;
    }
    return 1;
}

__attribute__((constructor)) static void begin(void) {
    dl_iterate_phdr(find_program, NULL);
    left[PROGRAM] = atol(getenv("REFUSED"));
    left[OTHERS] = atol(getenv("REFUSED_OTHERS"));
}

static int is_refused(void *caller) {
    int whose = (uintptr_t)caller >= first && (uintptr_t)caller < last ? PROGRAM : OTHERS;
    if (atomic_fetch_sub(&left[whose], 1) != 1) return 0;
    if (write(2, "refused\n", 8) != 8) abort();
    errno = ENOMEM;
    return 1;
}

#define REFUSED is_refused(__builtin_return_address(0))

void *malloc(size_t size) { return REFUSED ? NULL : __libc_malloc(size); }
void *calloc(size_t count, size_t size) { return REFUSED ? NULL : __libc_calloc(count, size); }
void *realloc(void *old, size_t size) { return REFUSED ? NULL : __libc_realloc(old, size); }
void *aligned_alloc(size_t align, size_t size) { return REFUSED ? NULL : __libc_memalign(align, size); }
int posix_memalign(void **taken, size_t align, size_t size) {
    if (REFUSED) return ENOMEM;
    *taken = __libc_memalign(align, size);
    return *taken ? 0 : ENOMEM;
}
"""
FRAME = bytes.fromhex(serial.HEADER) + bytes(46)
LINE = f"out 0 {FRAME.hex()}\n"
ONE_OF_ECM = f"class ecm\nrequests 1 1 1 1\n{LINE}".encode()
FIVE_OF_NCM16 = f"class ncm16\nrequests 1 1 1 1\n{LINE * 5}".encode()
PACKET = bytes.fromhex("4000") + FRAME + bytes.fromhex("deadbeef")
BLOCK_16 = bytes.fromhex("4e434d480c0000005c004c000000") + FRAME + bytes.fromhex("00004e434d30100000000e003c0000000000")
BLOCK_32 = (
    bytes.fromhex("6e636d681000000070000000500000000000")
    + FRAME
    + bytes.fromhex("00006e636d30200000000000000000000000120000003c0000000000000000000000")
)


class Counts(NamedTuple):
    """How many allocations a command makes before there is a sink, from then on, and for its threads."""

    before: int
    told: int
    threads: int


class Command(NamedTuple):
    """A command, what it reads, and its allocations."""

    words: str
    name: str
    given: bytes
    counts: Counts


# the counts of the program as it stands: where one differs, find out which allocation is new or gone, and write what was found
COMMANDS = [
    Command("serial", "one frame of ecm", ONE_OF_ECM, Counts(5, 37, 0)),
    Command("serial", "five frames of ncm16", FIVE_OF_NCM16, Counts(5, 51, 0)),
    Command("decode ecm", "one frame", FRAME, Counts(6, 2, 0)),
    Command("decode eem", "one frame", PACKET, Counts(6, 2, 0)),
    Command("decode ncm16", "one frame", BLOCK_16, Counts(6, 2, 0)),
    Command("decode ncm32", "one frame", BLOCK_32, Counts(6, 2, 0)),
    Command("run", "one frame of ecm", ONE_OF_ECM, Counts(5, 41, 10)),
    Command("run", "five frames of ncm16", FIVE_OF_NCM16, Counts(5, 55, 10)),
    Command("load 1000", "", b"", Counts(6, 1122, 10)),
]


def run(library, command, of_program=0, of_others=0):
    """Whether an allocation was refused, which is the one of the program or of its libraries with this number; and the status and the
    output of that run."""
    around = {"LD_PRELOAD": library, "REFUSED": str(of_program), "REFUSED_OTHERS": str(of_others)}
    words = [serial.BINARY, *command.words.split()]
    done = subprocess.run(words, input=command.given, capture_output=True, env=around, timeout=120)
    if done.stderr not in (b"", b"refused\n"):
        sys.exit(f"{command.words}: allocation {of_program or of_others}: {done.stderr[:80]} on standard error")
    return bool(done.stderr), (done.returncode, done.stdout)


def is_whole(command, output, whole):
    """Whether an output is the whole one. The workers of run may go another way each time: then its frames are compared, and its end."""
    if command.words != "run":
        return output == whole
    frames = [[line for line in text.splitlines() if line.startswith(b"frame ")] for text in (output, whole)]
    return frames[0] == frames[1] and output.endswith(b"\nend\n")


def refuse_program(library, command, whole):
    """How many refused allocations of the program ended it without and with the line `no memory`, and how many left the output whole."""
    before = told = threads = 0
    while True:
        was_refused, (status, output) = run(library, command, of_program=before + told + threads + 1)
        if not was_refused:
            return Counts(before, told, threads)
        if (status, output) == (1, b"no memory\n") and threads == 0:
            told += 1
        elif (status, output) == (1, b"") and told + threads == 0:
            before += 1
        elif status == 0 and command.counts.threads > 0 and is_whole(command, output, whole):
            threads += 1
        else:
            sys.exit(f"{command.words}: allocation {before + told + threads + 1} refused: status {status}, {output[:80]}")


def refuse_others(library, command, whole):
    """How many refused allocations of the C library left the output whole."""
    others = 0
    while True:
        was_refused, (status, output) = run(library, command, of_others=others + 1)
        if not was_refused:
            return others
        others += 1
        if status != 0 or not is_whole(command, output, whole):
            sys.exit(f"{command.words}: allocation {others} of the C library refused: status {status}, {output[:80]}")


def refuse_each(library, command):
    """Whether each refusal ended the command as it is to, and there were as many as its row says."""
    was_refused, (status, whole) = run(library, command)
    if was_refused or status != 0:
        sys.exit(f"{command.words} ended with {status}")
    others = refuse_others(library, command, whole)
    counts = refuse_program(library, command, whole)
    print(
        f"{command.words}, {command.name}: {counts.told} refused with status 1 and `no memory`, {counts.before} with status 1 before there is a "
        f"sink; {counts.threads} for threads and {others} of the C library refused with a whole output",
        flush=True,
    )
    if counts == command.counts:
        return True
    print(f"  its row has {command.counts} and not {counts}", flush=True)
    return False


def main():
    if not os.access(serial.BINARY, os.X_OK):
        sys.exit("no proved build: run ./usbnet --build first")
    with tempfile.TemporaryDirectory() as room:
        library = os.path.join(room, "refuses.so")
        compiler = os.environ.get("CC", "cc")
        subprocess.run([compiler, "-shared", "-fPIC", "-O1", "-x", "c", "-", "-o", library], input=REFUSES.encode(), check=True)
        same = [refuse_each(library, command) for command in COMMANDS]
    if not all(same):
        sys.exit("another number of allocations than COMMANDS has")


if __name__ == "__main__":
    main()
