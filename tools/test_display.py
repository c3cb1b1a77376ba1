#!/usr/bin/env python3
"""Tests of display.py, with nothing but Python's own library: `tools/test_display.py`. With the program that PROGRAM names, reports of
its runs are drawn too."""
import io
import json
import os
import random
import subprocess
import sys
import tempfile
import unittest
import xml.etree.ElementTree as ElementTree
from contextlib import redirect_stderr, redirect_stdout

sys.dont_write_bytecode = True
HERE = os.path.dirname(os.path.abspath(__file__))
sys.path.insert(0, HERE)
sys.path.insert(1, os.path.join(HERE, "peers"))
import boards  # noqa: E402
import display  # noqa: E402

PROGRAM = os.environ.get("PROGRAM") or os.path.join(HERE, "..", "target", "mudflatjar")


def report(pages, name="oled1", state="on", rest=b"\x00"):
    """A report with these bytes at the head of each page."""
    lines = ["cycles 16", f"oled {name} {state}"]
    for page in range(8):
        head = pages.get(page, b"")
        lines.append(f"oled {name} page {page} " + (head + rest * (128 - len(head))).hex().upper())
    return lines


def report_of(writes):
    """The report of a run on a board with an OLED at each of both addresses, whose firmware makes these writes: (address, bytes)."""
    code = boards.Code()
    bus = boards.Lines(code, random.Random(1), "C", 5, 4, False)
    for address, told in writes:
        bus.start()
        for byte in bytes([2 * address]) + told:
            bus.byte(byte)
        bus.stop()
    code.put(2, 0xCFFF)
    parts = [{"type": "wokwi-arduino-uno", "id": "uno"}] + [{"type": "board-ssd1306", "id": name, "attrs": attributes} for name, attributes in
                                                            (("usual", {}), ("other", {"i2cAddress": "0x3d"}))]
    wires = [[f"uno:{at}", f"{name}:{pin}", "", []] for name in ("usual", "other") for at, pin in (("A4", "SDA"), ("A5", "SCL"))]
    with tempfile.TemporaryDirectory() as folder:
        for file, text in {"wokwi.toml": "[wokwi]\nversion = 1\nfirmware = 'f.hex'\n", "f.hex": code.hex(),
                           "diagram.json": json.dumps({"version": 1, "parts": parts, "connections": wires})}.items():
            with open(os.path.join(folder, file), "w", encoding="ascii") as out:
                out.write(text)
        words = [PROGRAM, "run", folder, "--us", str(code.cycles // 16 + 10), "--report", "-"]
        return subprocess.run(words, stdout=subprocess.PIPE, check=True, text=True).stdout.split("\n")


class Dots(unittest.TestCase):
    def test_the_lowest_bit_is_the_upper_dot(self):
        dots = display.oled_dots(report({0: b"\x01", 7: b"\x00\x80"}), "oled1")
        self.assertEqual((len(dots), len(dots[0])), (64, 128))
        self.assertEqual([(y, x) for y, row in enumerate(dots) for x, lit in enumerate(row) if lit], [(0, 0), (63, 1)])

    def test_a_display_beside_another(self):
        lines = report({0: b"\xff"}, "a") + report({0: b"\x0f"}, "b")
        self.assertEqual(sum(map(sum, display.oled_dots(lines, "b"))), 4)

    def test_no_such_display(self):
        for lines, name in ((report({}), "oled2"), ([], "oled1"), (["led oled1 on lit 1"], "oled1")):
            with self.assertRaises(display.NoDisplay):
                display.oled_dots(lines, name)

    def test_a_report_that_is_cut(self):
        with self.assertRaisesRegex(display.NoDisplay, "before page 3"):
            display.oled_dots(report({})[:5], "oled1")
        broken = report({})
        broken[4] = broken[4][:-1]
        with self.assertRaisesRegex(display.NoDisplay, "not of the form"):
            display.oled_dots(broken, "oled1")


class ChipDots(unittest.TestCase):
    def test_rows_that_are_not_there_are_dark(self):
        lines = ["chip c alive", "chip c | row 0 FF", "chip c row 2 FF0000FF000000FF"]
        self.assertEqual(display.dots_of(lines, "c"), [[False, False], [False, False], ["#ff0000", False]])

    def test_a_display_beside_another(self):
        lines = ["chip a alive", "chip a row 0 00FF0000", "chip b alive", "chip b row 0 00FF0000FFFFFFFF"]
        self.assertEqual(display.dots_of(lines, "b"), [["#00ff00", "#ffffff"]])

    def test_no_such_display(self):
        for lines in (["chip c alive"], ["chip c trap 9 at 0", "chip c | row"]):
            with self.assertRaises(display.NoDisplay):
                display.dots_of(lines, "c")

    def test_a_line_of_another_form(self):
        for line in ("chip c row 0 FF0000F", "chip c row 0", "chip c row x FF0000FF"):
            with self.assertRaisesRegex(display.NoDisplay, "not of the form"):
                display.dots_of([line], "c")


@unittest.skipUnless(os.access(PROGRAM, os.X_OK), "the program is not built")
class Runs(unittest.TestCase):
    """What an OLED shows that is on, off, all lit or inverted, at both addresses."""
    POINTS = bytes((0x40, 0x01, 0x80))

    def lit(self, writes, name):
        return {(y, x) for y, row in enumerate(display.oled_dots(report_of(writes), name)) for x, lit in enumerate(row) if lit}

    def test_each_state_at_each_address(self):
        every = {(y, x) for y in range(64) for x in range(128)}
        points = {(0, 0), (7, 1)}
        for commands, dots in ((b"\x00\xAF", points), (b"\x00", set()), (b"\x00\xAF\xAE", set()), (b"\x00\xA5", set()), (b"\x00\xAF\xA5", every),
                               (b"\x00\xAF\xA7\xA5", every), (b"\x00\xAF\xA5\xA4", points), (b"\x00\xAF\xA7", every - points), (b"\x00\xA7\xAF\xA6", points)):
            for address, name, beside in ((0x3C, "usual", "other"), (0x3D, "other", "usual")):
                writes = [(address, commands), (address, self.POINTS)]
                self.assertEqual(self.lit(writes, name), dots, (commands, name))
                self.assertEqual(self.lit(writes, beside), set(), (commands, beside))

    def test_two_pictures_at_once(self):
        writes = [(0x3C, b"\x00\xAF"), (0x3D, b"\x00\xAF\xA7"), (0x3D, self.POINTS), (0x3C, b"\x40\x02"), (0x3E, b"\x40\x04"), (0x3C, b"\x40\x04")]
        self.assertEqual(self.lit(writes, "usual"), {(1, 0), (2, 1)})
        self.assertEqual(len(self.lit(writes, "other")), 64 * 128 - 2)


class Drawing(unittest.TestCase):
    def test_off_all_lit_and_inverted(self):
        text = lambda *given, **words: display.as_text(display.oled_dots(report(*given, **words), "oled1"))
        self.assertEqual(text({}, state="off"), "\n" * 32)
        self.assertEqual(text({}, rest=b"\xFF"), ("█" * 128 + "\n") * 32)
        self.assertEqual(text({0: b"\xFE\xFD"}, rest=b"\xFF").split("\n")[0], "▄▀" + "█" * 126)

    def test_an_odd_count_of_rows(self):
        self.assertEqual(display.as_text([[True, False], [True, True], [False, True]]), "█▄\n ▀\n")

    def test_text_has_two_rows_in_a_line(self):
        text = display.as_text(display.oled_dots(report({0: b"\x01\x02\x03\x00\x04"}), "oled1"))
        lines = text.split("\n")
        self.assertEqual(lines[:2], ["▀▄█", "    ▀"])
        self.assertEqual(len(lines), 33)

    def test_svg_is_xml_with_a_stretch_for_each_row(self):
        svg = display.as_svg(display.oled_dots(report({0: b"\x01\x01\x00\x01"}), "oled1"), "a<b&c")
        root = ElementTree.fromstring(svg)
        self.assertEqual(root.find("{*}title").text, "a<b&c")
        self.assertEqual(root.find("{*}path").get("d"), "M0 0h2v1h-2zM3 0h1v1h-1z")

    def test_a_path_for_each_color(self):
        lines = ["chip c alive", "chip c row 0 FF0000FFFF0000FF00FF00FF", "chip c row 1 00FF00FF00000000FF0000FF"]
        root = ElementTree.fromstring(display.as_svg(display.dots_of(lines, "c"), "c"))
        self.assertEqual([(path.get("fill"), path.get("d")) for path in root.findall("{*}path")],
                         [("#ff0000", "M0 0h2v1h-2zM2 1h1v1h-1z"), ("#00ff00", "M2 0h1v1h-1zM0 1h1v1h-1z")])
        self.assertEqual(display.as_text(display.dots_of(lines, "c")), "█▀█\n")


class Words(unittest.TestCase):
    def call(self, *words):
        out, err = io.StringIO(), io.StringIO()
        with redirect_stdout(out), redirect_stderr(err):
            status = display.main(list(words))
        return status, out.getvalue(), err.getvalue()

    def test_a_file_that_is_missing_and_one_that_is_there(self):
        with tempfile.TemporaryDirectory() as folder:
            name = os.path.join(folder, "report.txt")
            status, out, err = self.call(name, "oled1")
            self.assertEqual((status, out), (1, ""))
            self.assertIn("report.txt", err)
            with open(name, "w", encoding="ascii") as file:
                file.write("\n".join(report({0: b"\x01"})))
            self.assertEqual(self.call(name, "oled1")[:2], (0, "▀\n" + "\n" * 31))
            svg = os.path.join(folder, "picture.svg")
            self.assertEqual(self.call(name, "oled1", "--svg", svg), (0, "", ""))
            ElementTree.parse(svg)
            self.assertEqual(self.call(name, "other")[0], 1)


if __name__ == "__main__":
    unittest.main()
