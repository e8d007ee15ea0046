"""The trace's lines are those of docs/FORMATS.md, and what isn't understood is told."""
from __future__ import annotations

import re
import unittest

import common
from usbnet_tools.trace import KINDS, TraceError, read_output


class Trace(unittest.TestCase):
    def test_the_table_is_that_of_the_formats(self) -> None:
        page = (common.TOP / "docs" / "FORMATS.md").read_text()
        rows = re.findall(r"^\| `([a-z]+)((?: [A-Za-z]+)+)` \|", page.split("\n## Trace\n")[1].split("\n## Report\n")[0], re.MULTILINE)
        self.assertEqual({kind: len(words.split()) for kind, words in rows}, {kind: len(words.split()) for kind, words in KINDS.items()})

    def test_a_run_is_read(self) -> None:
        output = read_output((common.STORED / "sleep-and-unplug.trace").read_text().splitlines())
        self.assertEqual(len(output.lines), 38)
        self.assertEqual((output.lines[0].number, output.lines[0].text, output.lines[-1].text), (2, "posted out", "settled 2 2 2 2"))
        self.assertEqual((output.lines[4].text, output.lines[4]["to"], len(output.lines[4]["bytes"])), ("made out 0 0 2 <156 bytes>", 2, 156))
        self.assertEqual((output.report.wire, output.report.packet, output.report.block, len(output.report.controls)), ("ncm16", 512, 16384, 8))

    def test_what_isnt_understood_is_told_with_its_line(self) -> None:
        for rows, told in (
            ([], "line 1: a trace begins with the line `trace`; `usbnet serial < SCRIPT` prints one"),
            (["bad script 3 word"], "line 1: a trace begins with the line `trace`: 'bad script 3 word'; "),
            (["trace", "posted out"], "line 3: the trace ends without its line `end`"),
            (["trace", "flew out 0", "end"], "line 2: 'flew out 0' isn't understood: a line begins with took, refused, "),
            (["trace", "posted out", "landed out", "end"], "line 3: 'landed out' isn't understood: landed has the words lane serial"),
            (["trace", "landed up 0", "end"], "line 2: 'landed up 0' isn't understood: 'up' is no lane, which is out or in"),
            (["trace", "landed out 00", "end"], "line 2: 'landed out 00' isn't understood: '00' is no serial, which is a number"),
            (["trace", "gave out 0 AB", "end"], "line 2: 'gave out 0 AB' isn't understood: 'AB' is no bytes, which is bytes in pairs"),
            (["trace", "end", "more"], "line 3: 'more' isn't understood: behind a trace comes a report or nothing"),
        ):
            with self.assertRaises(TraceError) as caught:
                read_output(rows)
            self.assertTrue(str(caught.exception).startswith(told), caught.exception)


if __name__ == "__main__":
    unittest.main()
