"""The picture has every datagram's way, each loss with its cause, and the requests at home; its text stays text."""
from __future__ import annotations

import re
import unittest
import xml.etree.ElementTree as tree

import common
from usbnet_tools.colours import colour, hue
from usbnet_tools.picture import picture
from usbnet_tools.script import Script, read_script
from usbnet_tools.trace import Line, TraceError, read_line, read_output
from usbnet_tools.ways import BUS, POOLS, RECEIVING_APP, RECEIVING_END, SENDING_END, History

SVG = "{http://www.w3.org/2000/svg}"
EVERY = (0, 10**9)


def lines_of(name: str) -> list[Line]:
    return read_output((common.STORED / f"{name}.trace").read_text().splitlines()).lines


def script_of(name: str) -> Script:
    folder = common.STORED if name == "busy" else common.TOP / "examples"
    return read_script((folder / f"{name}.script").read_text().splitlines())


def drawn(lines: list[Line], script: Script | None = None, numbers: tuple[int, int] = EVERY) -> tree.Element:
    return tree.fromstring(picture(lines, script, *numbers, "a title"))


def words(picture: tree.Element) -> list[str]:
    return [element.text for element in picture.iter(f"{SVG}text")]


def ways(picture: tree.Element) -> list[tree.Element]:
    return [element for element in picture.iter(f"{SVG}path") if element.get("class").startswith("way ")]


def many_lines(frames: int) -> list[Line]:
    """A trace of so many frames, one after the other."""
    kinds = "took out 0;made out {0} {0} {1} abcd;flying out {0};landed out {0};txhome out {0};opened out {0};gave out {0} abcd;posted out"
    texts = [text.format(index, index + 1) for index in range(frames) for text in kinds.split(";")]
    return [read_line(number, text) for number, text in enumerate(texts, 2)]


class Ways(unittest.TestCase):
    def test_each_datagram_is_delivered_or_lost_with_its_cause(self) -> None:
        history = History(lines_of("sleep-and-unplug"), script_of("sleep-and-unplug"))
        told = {(way.lane, way.number): way.told for way in history.ways.values()}
        self.assertEqual(told["out", 0], "datagram 0 out, of sender 0: transfer 0; delivered")
        self.assertEqual(told["out", 3], "datagram 3 out, of sender 1: transfer 1; lost at line 31, failed: halt")
        self.assertEqual(told["out", 5], "datagram 5 out, of sender 1: transfer 2; lost at line 37, cut by unplug")
        self.assertEqual(len(told), 7)

    def test_a_transfer_that_is_tried_again_waits_again(self) -> None:
        history = History(lines_of("tried-again"), script_of("tried-again"))
        told = {(way.lane, way.number): way.told for way in history.ways.values()}
        self.assertEqual(told["out", 0], "datagram 0 out, of sender 0: transfer 0, 3 flights; delivered")
        self.assertEqual(told["in", 0], "datagram 0 in, of sender 0: transfer 0, 4 flights; lost at line 34, failed: proto")
        stations = [move.station for move in history.ways["out", 0].moves]
        self.assertEqual(stations, [SENDING_END, BUS, SENDING_END, BUS, SENDING_END, BUS, RECEIVING_END, RECEIVING_APP])
        away = dict(history.homes.away)
        for line in lines_of("tried-again"):
            if line.kind == "retried":
                pool = POOLS.index(f"rx {line.lane}")
                self.assertEqual((away[line.number - 1][pool], away[line.number][pool]), (1, 0), line.text)
        self.assertEqual(history.homes.away[-1][1], (0, 1, 0, 1))

    def test_causes_have_their_index_without_a_script(self) -> None:
        causes = {way.loss[1] for way in History(lines_of("busy"), None).ways.values() if way.loss}
        self.assertEqual(causes, {"failed: halt", "cut by control 2", "cut by control 3", "dropped by control 6"})

    def test_requests_are_home_where_a_stop_settled(self) -> None:
        for name in ("sleep-and-unplug", "busy"):
            for script in (None, script_of(name)):
                history = History(lines_of(name), script)
                settled = {line.number: line for line in lines_of(name) if line.kind == "settled"}
                sizes = [history.homes.size(pool) for pool in POOLS]
                self.assertEqual(sizes, list(next(iter(settled.values())).fields.values()))
                for number, counts in history.homes.away:
                    self.assertTrue(all(0 <= count <= size for count, size in zip(counts, sizes)), number)
                    self.assertTrue(number not in settled or not any(counts), number)

    def test_pools_are_at_least_what_was_away(self) -> None:
        homes = History(lines_of("three-pings"), None).homes
        self.assertEqual(([homes.size(pool) for pool in POOLS], homes.sizes), ([1, 1, 0, 1], {}))


class Picture(common.InRoom):
    def test_every_datagram_has_a_way_of_its_own_colour(self) -> None:
        found = ways(drawn(lines_of("busy")))
        self.assertEqual(len(found), 38)
        self.assertEqual(len({way.get("class") for way in found}), 38)
        for lightness in (0.55, 0.78):
            self.assertEqual(len({colour(lightness, hue(index)) for index in range(100)}), 100)

    def test_causes_controls_and_requests_are_written(self) -> None:
        told = words(drawn(lines_of("busy"), script_of("busy")))
        for text in ("failed: halt", "cut by unlink in", "cut by down", "dropped by unplug", "marked by unlink in", "halt cleared"):
            self.assertIn(text, told)
        for text in ("suspend", "resume", "unlink out", "up, forced", "unplug", "short", "Requests at home", "outward, receive (gadget)", "of 3"):
            self.assertIn(text, told)

    def test_a_way_goes_back_on_its_own_track(self) -> None:
        part = drawn(lines_of("tried-again"), script_of("tried-again"))
        self.assertEqual([text for text in words(part) if text.startswith("attempt ")], [f"attempt {number} failed" for number in (1, 1, 2, 2, 3)])
        corners = [float(x) for x in re.findall(r"[ML]([\d.]+) ", ways(part)[0].get("d"))]
        app, end, bus, far, last = corners[0], corners[1], corners[3], corners[13], corners[15]
        self.assertEqual(corners, [app, end, end, bus, bus, end, end, bus, bus, end, end, bus, bus, far, far, last])
        self.assertTrue(app < end < bus < far < last, corners)
        for line in lines_of("tried-again"):
            drawn(lines_of("tried-again"), None, (line.number, line.number + 1))

    def test_a_range_of_lines(self) -> None:
        part = drawn(lines_of("busy"), None, (40, 60))
        told = words(part)
        self.assertIn("lines 40 to 60 of the trace · colours and numbers: datagrams · dashes: requests · crosses: losses", told)
        lines = [line for line in lines_of("busy") if 40 <= line.number <= 60]
        self.assertEqual([text for text in told if text in {line.text for line in lines}], [line.text for line in lines])
        with self.assertRaisesRegex(TraceError, "no line of the trace is from 500 to 600: it has the lines 2 to 156"):
            picture(lines_of("busy"), None, 500, 600, "")

    def test_each_range_can_be_drawn(self) -> None:
        lines = lines_of("busy")
        for first in range(2, 157, 3):
            for size in (0, 1, 7, 40):
                drawn(lines, None, (first, first + size))

    def test_two_hundred_lines(self) -> None:
        whole = drawn(many_lines(25))
        self.assertEqual((len(ways(whole)), len(whole.findall(f".//{SVG}path[@class='bar']"))), (25, 4))
        self.assertLess(float(whole.get("width")), 1000)
        self.assertLess(float(whole.get("height")), 200 * 24)

    def test_light_and_dark(self) -> None:
        text = picture(lines_of("three-pings"), None, *EVERY, "")
        light, dark = text.split("@media (prefers-color-scheme: dark)")
        for name in (".paper", ".way", "text"):
            self.assertIn(name, light)
        for rules in (light.split("<style>")[1], dark.split("</style>")[0]):
            ink, paper = (re.search(pattern, rules).group(1) for pattern in (r"text \{ fill: (#\w+)", r"\.paper \{ fill: (#\w+)"))
            self.assertGreater(contrast(ink, paper), 10)
            for shade in re.findall(r"\.f\d+ \{ fill: (#\w+)", rules):
                self.assertGreater(contrast(shade, paper), 4, shade)

    def test_an_unknown_kind_is_told(self) -> None:
        done = common.run_tool("picture", given=b"trace\nposted out\nflew out 0\nend\n")
        self.assertEqual((done.returncode, done.stdout), (2, b""))
        self.assertTrue(done.stderr.startswith(b"picture: line 3: 'flew out 0' isn't understood"), done.stderr)

    def test_the_command_of_the_readme(self) -> None:
        words = ["--script", common.TOP / "examples" / "sleep-and-unplug.script", "-o", self.room / "drawn.svg"]
        done = common.run_tool("picture", *words, given=(common.STORED / "sleep-and-unplug.trace").read_bytes())
        self.assertEqual((done.returncode, done.stderr), (0, b""))
        self.assertEqual((self.room / "drawn.svg").read_text(), (common.TOP / "docs" / "sleep-and-unplug.svg").read_text())


def contrast(one: str, other: str) -> float:
    """The contrast of two colours (WCAG 2.1)."""

    def luminance(shade: str) -> float:
        parts = [int(shade[place : place + 2], 16) / 255 for place in (1, 3, 5)]
        linear = [part / 12.92 if part <= 0.04045 else ((part + 0.055) / 1.055) ** 2.4 for part in parts]
        return 0.2126 * linear[0] + 0.7152 * linear[1] + 0.0722 * linear[2]

    bright, dark = sorted((luminance(one), luminance(other)), reverse=True)
    return (bright + 0.05) / (dark + 0.05)


if __name__ == "__main__":
    unittest.main()
