#!/usr/bin/env python3
"""Tests of tools/truth.py and of what it asks: attributes and pins of chips, wiring, the table of what is left out. No program is run."""
import io
import json
import os
import re
import shutil
import sys
import tempfile
import unittest

HERE = os.path.dirname(os.path.abspath(__file__))
ROOT = os.path.dirname(HERE)
EXAMPLES = os.path.join(ROOT, "examples")
sys.path[:0] = [HERE, os.path.join(ROOT, "sdk")]
import truth
import wasm

attributes, pages, tell, wiring = truth.attributes, truth.pages, truth.tell, truth.wiring
HALT = "uno uno pc 0x3F00 halt 0xFFFF"
TRAP = "chip c trap 2 at 2357"


def report(*lines):
    return "\n".join(["cycles 16", *lines]) + "\n"


class OfReports(unittest.TestCase):
    def test_what_fails_a_test_and_what_is_told(self):
        found = truth.of_report(
            report(
                HALT, TRAP, "uno uno ignored 0x61", "uno uno ignored 0x64", "uno uno ignored 0xF0", "led led1 on lit 1"
            )
        )
        self.assertEqual(
            [(it.names[0], it.fails) for it in found],
            [("halt", True), ("trap", True), ("left-out", True), ("left-out", False), ("left-out", True)],
        )
        fails, told = truth.verdict(found)
        self.assertEqual(len(fails), 4)
        self.assertIn("uno: the core halted at word address 0x3F00, on the word 0xFFFF: empty flash", fails[0])
        self.assertIn("c: trap 2 (MemoryBounds) ended this chip after 147.3125 us", fails[1])
        self.assertEqual(
            told,
            [
                "uno: the firmware wrote to the clock and power control (PRR 0x64), which is not simulated: nothing happened"
            ],
        )
        self.assertEqual(len(truth.verdict(found, strict=True).fails), 4)  # the registers of one unit are one sentence
        self.assertEqual(truth.verdict(found, strict=True).told, [])

    def test_a_good_run_has_nothing(self):
        self.assertEqual(
            truth.of_report(
                report("uno uno pc 0x0197 run", "led led1 off lit 2", "chip c alive", "chip c | trap 2 at 3")
            ),
            [],
        )

    def test_a_test_says_what_it_means(self):
        found = truth.of_report(report(HALT, TRAP, "uno uno ignored 0x61"))
        for word, left in (
            ("halt", 2),
            ("0xFFFF", 2),
            ("uno", 2),
            ("trap", 2),
            ("trap 2", 2),
            ("c", 2),
            ("trap 3", 3),
            ("left-out", 2),
            ("CLKPR", 2),
            ("0x61", 2),
            ("PRR", 3),
        ):
            self.assertEqual(len(truth.verdict(found, [word]).fails), left, word)
        self.assertEqual(truth.verdict(found, ["halt", "trap", "CLKPR"]), ([], []))
        self.assertEqual(len(truth.verdict(found, expected=report("uno uno pc * halt 0xFFFF", TRAP)).fails), 1)
        self.assertEqual(len(truth.verdict(found, expected=report("uno uno pc 0x3F01 halt 0xFFFF")).fails), 3)

    def test_a_word_that_names_nothing_is_told(self):
        self.assertEqual(
            truth.unknown(
                [
                    "halt",
                    "CLKPR",
                    "0x61",
                    "0xFFFF",
                    "trap 9",
                    "NineBits",
                    "divider",
                    "c",
                    "c.distance",
                    "hlat",
                    "CLKRP",
                    "trap x",
                ],
                ["c"],
            ),
            ["hlat", "CLKRP", "trap x"],
        )

    def test_a_console_that_was_cut(self):
        line = "x" * 63
        whole = [f"chip c | {line}"] * 1023
        self.assertEqual(truth.of_report(report(*whole)), [])
        (found,) = truth.of_report(report(*whole, f"chip c | {line}"))
        self.assertEqual((found.names, found.fails), (("console", "c"), True))
        self.assertEqual(
            truth.texts([found]),
            ["c: what this chip printed after its first 65,536 bytes is not shown (docs/REPORT.md)"],
        )
        self.assertIn(
            "c: what this chip printed after its first", " ".join(tell.left_out(report(*whole, f"chip c | {line}")))
        )


class Omissions(unittest.TestCase):
    """What firmware asked for that is left out: the page's table is the definition's."""

    def definition(self, name):
        with open(os.path.join(ROOT, "crates", "avr_omit", "specs", name), encoding="utf-8") as file:
            return file.read()

    @unittest.skipUnless(
        os.path.isdir(os.path.join(ROOT, "crates")), "a release has no crates: the table is not compared, skipped"
    )
    def test_the_table_has_each_row_of_the_definition(self):
        rows = {
            (int(address, 16), name)
            for address, name in re.findall(
                r"is_row 0x([0-9A-F]{2}) .* then Some (\w+)", self.definition("Omissions.antt")
            )
        }
        self.assertEqual({(address, name) for name, found in pages.omissions().items() for address in found}, rows)
        self.assertEqual(
            list(dict.fromkeys(re.findall(r'= codes "(\w+)"', self.definition("Names.antt")))),
            list(dict.fromkeys(re.findall(r'codes "(\w+)"', self.definition("Names.antt")))),
        )
        self.assertEqual(set(re.findall(r'codes "(\w+)"', self.definition("Names.antt"))), set(pages.omissions()))

    def test_a_line_becomes_its_row(self):
        lines = report(
            "uno uno ignored 0x50",
            "uno uno ignored 0xF0",
            "uno uno omits PinClock at 1610 0x81 0x07",
            "uno uno omits PowerReduction at 16 0x64 0xFF",
        )
        found = truth.of_report(lines)
        self.assertEqual(
            [(it.names[:3], it.fails) for it in found],
            [
                (("left-out", "0xF0", "0xF0"), True),
                (("left-out", "PinClock", "TCCR1B"), True),
                (("left-out", "PowerReduction", "PRR"), False),
            ],
        )
        fails, told = truth.verdict(found)
        self.assertIn(
            "uno: timer 1 clocked by pin 5 is not simulated: it does not count (TCCR1B 0x07 after 100.625 us", fails[0]
        )
        self.assertEqual(len(told), 1)
        # where these lines are, they decide, and not the report's `ignored` of the same register
        self.assertNotIn("ACSR", " ".join([*fails, *told]))
        self.assertIn("ACSR", " ".join(truth.verdict(truth.of_report(report("uno uno ignored 0x50"))).told))


class Chips(unittest.TestCase):
    def setUp(self):
        self.folder = tempfile.mkdtemp()
        self.addCleanup(shutil.rmtree, self.folder)

    def project(self, example, stem, attrs, pins=None, **more):
        """A project with one chip of an example, `more` of whose part is given, and what is said of it."""
        for ending in (".wasm", ".json"):
            shutil.copyfile(os.path.join(EXAMPLES, example, stem + ending), os.path.join(self.folder, stem + ending))
        if pins is not None:
            self.put(f"{stem}.json", json.dumps({"name": stem, "pins": pins}))
        self.put(
            "wokwi.toml", f"[wokwi]\nversion = 1\nfirmware = 'a.hex'\n[[chip]]\nname = 'it'\nbinary = '{stem}.wasm'\n"
        )
        self.put(
            "diagram.json",
            json.dumps(
                {
                    "version": 1,
                    "parts": [
                        {"type": "wokwi-arduino-uno", "id": "uno"},
                        {"type": "chip-it", "id": "c1", "attrs": attrs, **more},
                    ],
                    "connections": [],
                }
            ),
        )
        return truth.of_project(self.folder)

    def put(self, name, text):
        with open(os.path.join(self.folder, name), "w", encoding="utf-8") as file:
            file.write(text)

    def test_attributes_that_a_chip_reads(self):
        for value in ("1", "-5", "0000000007", 12, "4294967295", "-2147483648"):
            self.assertEqual(self.project("chip-thermometer", "thermometer", {"temperature": value}), [], value)

    def test_attributes_that_are_no_whole_number(self):
        for value in ("23.5", "", "1e3", "0x10", "4294967296", "-2147483649", "12345678901", 2.5, True, None):
            (found,) = self.project("chip-thermometer", "thermometer", {"temperature": value})
            self.assertIn(
                f'c1: the chip reads its attribute "temperature" as a whole number, and {json.dumps(value)} is none: the default was used',
                found.text,
            )
            self.assertEqual(found.names, ("attribute", "c1.temperature", "temperature", "c1"))

    def test_attributes_that_a_chip_does_not_ask_for(self):
        (found,) = self.project("chip-thermometer", "thermometer", {"temprature": "23"})
        self.assertEqual(
            found.text, 'c1: its attribute "temprature" ("23") is none that the chip asks for; is it "temperature"?'
        )
        (found,) = self.project("chip-blinker", "blinker", {"x": "1", "micros": "5"})
        self.assertEqual(found.text, 'c1: its attribute "x" ("1") is none that the chip asks for; it asks for micros')

    def test_a_chip_in_place_of_a_part_of_wokwi_has_attributes_for_its_drawing_and_pins_of_its_part(self):
        given = {"stem": "thermometer", "attrs": {"horn": "cross"}, "pins": ["GND"]}
        self.assertEqual(len(self.project("chip-thermometer", **given)), 3)
        self.assertEqual(self.project("chip-thermometer", **given, **{"as": "wokwi-servo"}), [])
        (found,) = self.project("chip-thermometer", "thermometer", {"temperature": "1.5"}, **{"as": "wokwi-servo"})
        self.assertIn("as a whole number", found.text)

    def test_names_that_a_chip_makes_as_it_runs_are_not_judged(self):
        self.assertEqual(self.project("chip-typist", "typist", {"text1.1": "111", "baud": "9600"}), [])
        (found,) = self.project("chip-typist", "typist", {"speed": "9600"})
        self.assertIn('"speed"', found.text)

    def test_a_pin_that_the_json_file_lacks(self):
        (found,) = self.project("chip-inverter", "inverter", {}, ["IN", "VCC", "", "OUTT"])
        self.assertEqual((found.names[0], found.fails), ("pin", True))
        self.assertIn(
            'c1: the chip asks for the pin "OUT", which is not in its JSON file (IN, VCC, OUTT); is it "OUTT"?',
            found.text,
        )
        self.assertEqual(self.project("chip-inverter", "inverter", {}), [])

    def test_thousandths(self):
        self.assertEqual(
            [
                attributes.thousandths(it)
                for it in ("23.5", "-0.0005", 2.25, "1e3", ".5", "x", "nan", True, "3000000", None, "1e999")
            ],
            ["23500", "0", "2250", "1000000", "500", None, None, None, None, None, None],
        )
        image = b"distance\0distance.thousandths\0x.thousandths\0"
        self.assertEqual(
            attributes.hand_over({"distance": "23.5", "whole": "2", "text": "a"}, image),
            {"distance": "23.5", "distance.thousandths": "23500", "whole": "2", "text": "a"},
        )
        self.assertEqual(attributes.hand_over({"distance": "23.5"}, b"distance\0"), {"distance": "23.5"})
        diagram = lambda value, kind="chip-a": {"parts": [{"type": kind, "id": "c", "attrs": {"v": value}}]}
        self.assertEqual(
            [
                attributes.needs_thousandths(it)
                for it in (diagram("2.5"), diagram("2"), diagram("a"), diagram("2.5", "wokwi-led"))
            ],
            [True, False, False, False],
        )

    def test_a_module_that_is_none_says_nothing(self):
        self.assertEqual(attributes.asked(b"no module", "attrInit"), ([], False))


class Modules(unittest.TestCase):
    def read(self, *path):
        with open(os.path.join(ROOT, *path), "rb") as file:
            return wasm.read(file.read())

    def test_what_a_module_hands_to_a_function(self):
        module = self.read("tools", "wokwi", "chips", "dht22.wasm")
        self.assertEqual(
            (module.names_given("pinInit"), module.names_given("attrInit"), module.names_given("none")),
            (["control", "SDA"], ["temperature", "humidity"], []),
        )
        self.assertEqual(
            self.read("examples", "chip-typist", "typist.wasm").names_given("attrInit"), ["baud", None, None, None]
        )

    def test_each_instruction_of_each_module_is_read(self):
        for folder in sorted(os.listdir(EXAMPLES)):
            for name in sorted(os.listdir(os.path.join(EXAMPLES, folder))) if folder.startswith("chip-") else ():
                if name.endswith(".wasm"):
                    for body in self.read("examples", folder, name).bodies:
                        *_, last = wasm.instructions(body)
                        self.assertEqual((last.opcode, last.at), (0x0B, len(body) - 1), name)

    def test_a_cut_module_is_refused(self):
        with open(os.path.join(EXAMPLES, "chip-inverter", "inverter.wasm"), "rb") as file:
            data = file.read()
        for size in range(8, len(data)):
            try:
                wasm.Module(data[:size])
            except ValueError:
                pass
        self.assertRaises(ValueError, wasm.Module, b"x")


UNO = {"type": "wokwi-arduino-uno", "id": "uno"}


class Wiring(unittest.TestCase):
    def setUp(self):
        self.folder = tempfile.mkdtemp()
        self.addCleanup(shutil.rmtree, self.folder)

    def said(self, parts, wires, levels=None, sketch=""):
        """The reasons and sentences of a plan: parts as `id type`, wires as `a:b c:d`; `levels` are (first, cycles) by variable."""
        diagram = {
            "version": 1,
            "parts": [UNO, *({"id": it.split()[0], "type": it.split()[1]} for it in parts)],
            "connections": [[*it.split(), "", []] for it in wires],
        }
        with open(os.path.join(self.folder, "diagram.json"), "w", encoding="utf-8") as file:
            json.dump(diagram, file)
        with open(os.path.join(self.folder, "sketch.ino"), "w", encoding="utf-8") as file:
            file.write(sketch + "\nvoid setup() {}")
        return [(reason, text) for reason, _, text in wiring.faults(self.folder, levels or {})]

    def reasons(self, *words, **more):
        return [reason for reason, _ in self.said(*words, **more)]

    def test_each_reason_is_one_that_can_be_allowed(self):
        self.assertEqual(truth.unknown(wiring.REASONS), [])

    def test_an_output_against_a_supply(self):
        ((reason, text),) = self.said([], ["uno:12 uno:GND.3"], {"uno.12": (1600, 16000)})
        self.assertEqual(
            (reason, text),
            (
                "short",
                "uno.12: an output is high against one that is low (uno.12, uno.GND.3), from 0.1 ms on, for 1 ms in all: a real board has a short circuit there",
            ),
        )
        self.assertEqual(self.reasons([], ["uno:12 uno:GND.3"]), [])
        self.assertEqual(self.reasons([], ["uno:12 uno:GND.3"], {"uno.12": (1600, 3)}), [])  # two that drive by turns
        self.assertEqual(
            self.reasons(["b wokwi-pushbutton"], ["uno:2 b:1.r", "b:2.l uno:5V"], {"uno.2": (0, 99)}), ["short"]
        )
        self.assertEqual(self.reasons([], ["uno:2 uno:3"], {"uno.2": (0, 99), "uno.3": (0, 99)}), ["short"])
        self.assertEqual(self.reasons(["s board-source"], ["uno:2 s:OUT"], {"uno.2": (0, 99)}), ["short"])

    def test_a_divider_and_a_pull_up_against_a_resistor(self):
        parts, wires = ["r1 wokwi-resistor", "r2 wokwi-resistor"], [
            "uno:5V r1:1",
            "r1:2 uno:A0",
            "uno:A0 r2:1",
            "r2:2 uno:GND.1",
        ]
        ((reason, text),) = self.said(parts, wires, {"uno.A0": (0, 16000)})
        self.assertEqual(reason, "divider")
        self.assertIn("uno.A0: its net has high through r1 and low through r2", text)
        self.assertEqual(
            self.reasons(parts, [it.replace("A0", "2") for it in wires], {"uno.2": (0, 99)}), ["contradiction"]
        )
        self.assertEqual(
            self.reasons(["r1 wokwi-resistor"], ["uno:2 r1:1", "r1:2 uno:GND.1"], {"uno.2": (0, 99)}), ["contradiction"]
        )

    def test_leds_in_series(self):
        two = ["led1 wokwi-led", "led2 wokwi-led"]
        ((reason, text),) = self.said(two, ["uno:5V led1:A", "led1:C led2:A", "led2:C uno:GND.1"])
        self.assertEqual((reason, text[:32]), ("series", "led1 and led2 are in series, and"))
        self.assertEqual(
            self.reasons([*two, "r wokwi-resistor"], ["uno:13 led1:A", "led1:C r:1", "r:2 led2:A", "led2:C uno:GND.1"]),
            ["series"],
        )
        self.assertEqual(
            self.reasons(two, ["uno:13 led1:A", "led1:C uno:GND.1", "uno:13 led2:A", "led2:C uno:GND.1"]), []
        )
        self.assertEqual(self.reasons(two, ["led1:C uno:4", "uno:4 led2:A"]), [])  # between two outputs, or three-state
        self.assertEqual(self.reasons(two, ["led1:A uno:13"]), [])

    def test_potentiometers(self):
        pot = ["pot1 wokwi-potentiometer"]
        self.assertEqual(self.reasons(pot, ["pot1:SIG uno:A0", "pot1:VCC uno:5V", "pot1:GND uno:GND.1"]), [])
        self.assertEqual(self.reasons(pot, ["pot1:SIG uno:A0", "pot1:VCC uno:7", "pot1:GND uno:8"]), [])
        self.assertEqual(self.reasons(pot, ["pot1:VCC uno:5V"]), [])
        for wires, text in (
            (["pot1:SIG uno:A0"], "its VCC and GND are not wired"),
            (["pot1:SIG uno:A0", "pot1:VCC uno:5V"], "its GND is not wired"),
            (["pot1:SIG uno:A0", "pot1:GND uno:5V", "pot1:VCC uno:GND.1"], "its VCC and GND are swapped"),
            (["pot1:SIG uno:A0", "pot1:GND uno:5V", "pot1:VCC uno:VIN"], "are both high"),
        ):
            ((reason, said),) = self.said(pot, wires)
            self.assertEqual((reason, text in said), ("supply", True), said)

    def test_analog_pins(self):
        self.assertEqual(self.reasons([], ["uno:A0 uno:3.3V"]), ["voltage"])
        self.assertEqual(self.reasons(["r wokwi-resistor"], ["uno:A0 r:1", "r:2 uno:3.3V"]), ["voltage"])
        self.assertEqual(self.reasons([], ["uno:AREF uno:3.3V", "uno:A0 uno:5V"]), [])
        reads = "#define POT A3\nconst int LIGHT = 2;\nint a = analogRead(POT), b = analogRead(LIGHT); // analogRead(A5)\nint i, c = analogRead(i);"
        self.assertEqual([text.split(":")[0] for _, text in self.said([], ["uno:A2 uno:5V"], sketch=reads)], ["uno.A3"])
        self.assertEqual(self.reasons([], [], sketch=reads), [])  # a sketch alone has no wiring
        ((_, text),) = self.said([], [], sketch="int a = (randomSeed(analogRead(0)), 1);")
        self.assertIn("so randomSeed gives the same numbers in each run", text)

    def test_an_led_at_a_pull_up(self):
        led, wires = ["led1 wokwi-led"], ["uno:7 led1:A", "led1:C uno:GND.1"]
        pull_up = "int x = (pinMode(7, INPUT_PULLUP), 0);"
        self.assertEqual(self.reasons(led, wires, sketch=pull_up), ["dim"])
        self.assertEqual(self.reasons(led, wires, sketch=pull_up + "int y = (pinMode(7, OUTPUT), 0);"), [])
        self.assertEqual(self.reasons(led, wires, sketch="int x = (pinMode(7, OUTPUT), 0);"), [])
        self.assertEqual(
            self.reasons([*led, "b wokwi-pushbutton"], [*wires, "b:1.l uno:7", "b:2.l uno:5V"], sketch=pull_up), []
        )

    def test_a_wave_s_contradictions(self):
        head = "$timescale 100 ps $end\n$var wire 1 ! uno.2 $end\n$var wire 1 # uno.3 $end\n$var wire 1 x led1.A $end\n$enddefinitions $end\n"
        wave = head + "#0\n$dumpvars\n0!\n1#\n0x\n$end\n#625\nx!\n#1250\n1!\nxx\n#6250\nx!\n#12500\nx#\n#62500\n"
        read = lambda text: wiring.contradictions(io.BytesIO(text.encode()), ["uno.2", "uno.3"])
        self.assertEqual(read(wave), {"uno.2": (1, 91), "uno.3": (20, 80)})
        self.assertEqual(read(head + "#0\n$dumpvars\n0!\n1#\n0x\n$end\n#625\n1!\n"), {})
        self.assertEqual(read(""), {})


if __name__ == "__main__":
    unittest.main()
