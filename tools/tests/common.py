"""What the tests share: where things are, how a tool is run, and how another program reads what a tool wrote."""
from __future__ import annotations

import shutil
import subprocess
import sys
import tempfile
import unittest
from pathlib import Path

HERE = Path(__file__).resolve().parent
TOOLS = HERE.parent
TOP = TOOLS.parent
STORED = HERE / "stored"
DOUBLE = str(HERE / "stored_program")
sys.path.insert(0, str(TOOLS))


def run_tool(name: str, *words: object, given: bytes = b"") -> subprocess.CompletedProcess:
    """Runs a tool as a person does."""
    return subprocess.run([sys.executable, TOOLS / name, *map(str, words)], input=given, capture_output=True)


def tshark(path: Path, shown: str, *fields: str) -> list[list[str]]:
    """What Wireshark's dissectors read in a file: these fields of the packets that a filter shows."""
    words = ["tshark", "-r", str(path), "-Y", shown, "-T", "fields", *(word for name in fields for word in ("-e", name))]
    done = subprocess.run(words, capture_output=True, text=True, check=True)
    return [line.split("\t") for line in done.stdout.splitlines()]


def tshark_frames(path: Path, interface: int) -> list[str]:
    """The bytes of an interface's packets, in hexadecimal digits."""
    words = ["tshark", "-r", str(path), "-Y", f"frame.interface_id == {interface}", "-T", "json", "-x"]
    import json

    done = subprocess.run(words, capture_output=True, text=True, check=True)
    return [one["_source"]["layers"]["frame_raw"][0] for one in json.loads(done.stdout)]


needs_tshark = unittest.skipUnless(shutil.which("tshark"), "tshark isn't installed: apt-get install tshark")


class InRoom(unittest.TestCase):
    """A test with a directory of its own."""

    def setUp(self) -> None:
        room = tempfile.TemporaryDirectory(prefix="usbnet-tests-")
        self.addCleanup(room.cleanup)
        self.room = Path(room.name)
