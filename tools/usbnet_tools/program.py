"""Asks the usbnet program what a transfer is. This module isn't proved; what the program answers is the program's."""
from __future__ import annotations

import multiprocessing
import os
import subprocess
import tempfile
from concurrent.futures import ProcessPoolExecutor
from dataclasses import dataclass
from pathlib import Path
from typing import Iterable

TOP = Path(__file__).resolve().parents[2]
LAUNCHER = TOP / "usbnet"
BINARY = TOP / "crates" / "usbnet" / "out" / "usbnet"
PROVED = "proved and built by"
# each run without a build reads all sources anew: so many are bearable
MOST_UNBUILT = 8
# so few transfers of a built program don't pay for a pool; and how many of more are handed to a process of it at once
FEW, CHUNK = 64, 16
DONE, TOO_LARGE, BAD_TRANSFER = 0, 7, 8
# what a launcher needs of the environment: the more is handed on, the more a start costs
ENVIRONMENT = {name: os.environ[name] for name in ("PATH", "HOME", "TMPDIR", "RATTLE_HOME") if name in os.environ}


class ProgramError(Exception):
    """The program isn't there, or gave no verdict."""


@dataclass(frozen=True)
class Verdict:
    """What the program says of a transfer: its frames, or its first fault and the fault's place in bytes."""

    frames: tuple[bytes, ...] = ()
    commands: int = 0
    fault: str = ""
    place: int = 0


@dataclass(frozen=True)
class Program:
    """The program: its path, what is known of it, and how many distinct transfers it may be asked for."""

    path: Path
    told: str
    most: int | None = None

    @staticmethod
    def find(asked: str | None) -> Program:
        """The program at a path, or else the one that this repository's launcher would run."""
        if asked:
            path = Path(asked)
            if not os.access(path, os.X_OK) or path.is_dir():
                raise ProgramError(f"no program at {asked}")
            return Program(path.resolve(), f"{asked}, as it was given")
        if not os.access(LAUNCHER, os.X_OK):
            raise ProgramError(f"no program: {LAUNCHER} isn't there; say where it is by --program PATH")
        version = subprocess.run([LAUNCHER, "--version"], capture_output=True, text=True)
        if version.returncode:
            raise ProgramError(f"no program: {version.stderr.strip()}; say where one is by --program PATH")
        if PROVED in version.stdout:
            return Program(BINARY, f"{BINARY}, proved")
        return Program(LAUNCHER, f"{LAUNCHER}, not proved: ./usbnet --build proves and builds it", MOST_UNBUILT)

    def decode(self, asked: Iterable[tuple[str, bytes]]) -> dict[tuple[str, bytes], Verdict]:
        """The verdict on each transfer of a class. Equal ones are asked once, and several at the same time."""
        distinct = list(dict.fromkeys(asked))
        if self.most is not None and len(distinct) > self.most:
            raise ProgramError(
                f"{len(distinct)} distinct transfers, and the program isn't built: each would take a minute. "
                f"Build it first by {LAUNCHER} --build, or say where a built one is by --program PATH"
            )
        if len(distinct) < FEW and self.most is None:
            return {transfer: self.decode_one(transfer) for transfer in distinct}
        # processes, not threads: Python starts a program with its lock held, so that threads would start one after the other
        with ProcessPoolExecutor(os.cpu_count(), multiprocessing.get_context("fork")) as pool:
            return dict(zip(distinct, pool.map(self.decode_one, distinct, chunksize=1 if self.most else CHUNK)))

    def decode_one(self, transfer: tuple[str, bytes]) -> Verdict:
        """Runs the program once, over files without a name: that costs less than pipes do."""
        wire, data = transfer
        with tempfile.TemporaryFile() as given, tempfile.TemporaryFile(buffering=0) as taken:
            given.write(data)
            given.seek(0)
            actions = [
                (os.POSIX_SPAWN_DUP2, given.fileno(), 0),
                (os.POSIX_SPAWN_DUP2, taken.fileno(), 1),
                (os.POSIX_SPAWN_OPEN, 2, os.devnull, os.O_WRONLY, 0),
            ]
            child = os.posix_spawn(self.path, [str(self.path), "decode", wire], ENVIRONMENT, file_actions=actions)
            status = os.waitstatus_to_exitcode(os.waitpid(child, 0)[1])
            taken.seek(0)
            return read_verdict(status, taken.readall().decode("ascii"))


def read_verdict(status: int, text: str) -> Verdict:
    """The verdict in what `usbnet decode` printed, with the status that it ended with."""
    lines = text.splitlines()
    try:
        if status == DONE:
            frames = tuple(bytes.fromhex(line.split(" ")[3]) for line in lines if line.startswith("frame "))
            told = dict(line.split(" ", 1) for line in lines if not line.startswith("frame "))
            if int(told["frames"]) == len(frames):
                return Verdict(frames, int(told["commands"]))
        elif status == BAD_TRANSFER:
            _, _, fault, place = lines[0].split(" ")
            return Verdict(fault=fault, place=int(place))
        elif status == TOO_LARGE:
            return Verdict(fault="too-large")
    except (KeyError, IndexError, ValueError):
        pass
    raise ProgramError(f"the program gave no verdict: it ended with status {status} and printed {text[:80]!r}")
