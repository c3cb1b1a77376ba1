#!/usr/bin/env python3
"""Tests of the tools for Wokwi's folders that need no compiler. PROGRAM is the program; without one its part is skipped."""
import json
import os
import shutil
import subprocess
import sys
import tempfile
import unittest
import unittest.mock

HERE = os.path.dirname(os.path.abspath(__file__))
sys.path[:0] = [HERE]
import diagram as diagrams
import firmware
import formulas
import lower
import shown
import sketch
import typist
import wave

PROGRAM = os.environ.get("PROGRAM") or os.environ.get("MUDFLATJAR")
EMPTY_HEX = ":00000001FF\n"


def uno(*parts, wires=()):
    return {"version": 1, "parts": [{"type": "wokwi-arduino-uno", "id": "uno", "attrs": {}}, *parts], "connections": [[one, other, "green", []] for one, other in wires]}


def part(kind, name, **attrs):
    return {"type": kind, "id": name, "attrs": attrs}


def nets(diagram):
    """The sets of ends that the wires of a diagram join."""
    joined = diagrams.Joined()
    for one, other, *_ in diagram["connections"]:
        joined.join(one, other)
    found = {}
    for end in list(joined.above):
        found.setdefault(joined.find(end), set()).add(end)
    return sorted(map(sorted, found.values()))


def lowered(value, chips=None):
    lowering = diagrams.Lowering(value, chips or {})
    return lowering, lowering.outcome()


class TableOfTypes(unittest.TestCase):
    def setUp(self):
        self.types = diagrams.table()

    def pieces(self):
        for kind, rule in self.types["lowered"].items():
            for pieces in rule["cases"].values() if "cases" in rule else [rule["as"]]:
                for piece in pieces or []:
                    yield kind, rule, piece

    def test_each_piece_is_a_part_or_a_chip_with_these_pins(self):
        for kind, rule, piece in self.pieces():
            if "chip" in rule and "hidden" not in piece:
                with open(os.path.join(HERE, "chips", rule["chip"] + ".json"), encoding="utf-8") as file:
                    pins = json.load(file)["pins"]
                pins = piece["pins"].values() if rule.get("drawn as itself") else pins  # it has those that the editor's part has
                self.assertEqual(piece["type"], "chip-" + rule["chip"], kind)
            else:
                of = self.types["simulated"][piece["type"]]
                pins = of["pins"]
                if "pins if" in of and piece.get("attrs", {}).get(of["pins if"]["attribute"]) == of["pins if"]["is"]:
                    pins = of["pins if"]["pins"]
            self.assertLessEqual(set(piece["pins"].values()), set(pins), f"{kind}{piece['id']}")

    def test_it_knows_most_types(self):
        known = {*self.types["simulated"], *self.types["breadboards"], *self.types["lowered"], *self.types["left out"]}
        self.assertGreaterEqual(len(known), 70)
        self.assertFalse(known & set(self.types["not there"]))

    def test_each_rule_says_where_its_pin_names_are_from(self):
        for kind, rule in self.types["lowered"].items():
            self.assertIn(rule["pin names"], ("recalled", "unsure"), kind)

    def test_formulas_are_there_and_take_the_defaults(self):
        for _, _, piece in self.pieces():
            for rule in piece.get("attrs", {}).values():
                self.assertRegex(formulas.value_of(rule, {}), r"^(-?[0-9]+|anode|cathode|i2c|red|green|blue)$")


@unittest.skipUnless(PROGRAM, "no program")
class TheProgramJudges(unittest.TestCase):
    """The program's `check` says whether a type and its pins are there."""

    def check(self, value, chips=None):
        with tempfile.TemporaryDirectory() as folder:
            settings = lower.settings_text([(name, name) for name in chips or {}])
            for name, text in (("diagram.json", json.dumps(value)), ("firmware.hex", EMPTY_HEX), ("wokwi.toml", settings)):
                with open(os.path.join(folder, name), "w", encoding="utf-8") as file:
                    file.write(text)
            for name, own in (chips or {}).items():
                lower.put_own(folder, name, own)
            ran = subprocess.run([PROGRAM, "check", folder], capture_output=True, text=True, check=False)
            return ran.stdout + ran.stderr

    def test_each_type_has_these_pins_and_no_other(self):
        for kind, rule in diagrams.table()["simulated"].items():
            if kind == "wokwi-arduino-uno":
                self.assertEqual(self.check(uno(wires=[("uno:0", f"uno:{pin}") for pin in rule["pins"]])), "accepted\n")
                continue
            wires = [("uno:2", f"it:{pin}") for pin in rule["pins"]]
            self.assertEqual(self.check(uno(part(kind, "it"), wires=wires)), "accepted\n", kind)
            self.assertIn("PinUnknown", self.check(uno(part(kind, "it"), wires=[("uno:2", "it:none")])))

    def test_what_is_made_of_each_type_is_accepted(self):
        types = diagrams.table()
        for kind, rule in types["lowered"].items():
            for case in rule.get("cases", {"": None}):
                attrs = {rule["by"]: case} if case else {}
                pins = sorted({pin for pieces in (rule["cases"].get(case) if case else rule["as"],) for piece in pieces or [] for pin in piece["pins"]})
                value = uno(part(kind, "it", **attrs), wires=[("uno:2", f"it:{pin}") for pin in pins])
                if kind == "wokwi-arduino-nano":
                    value["parts"] = [part(kind, "it")]
                    value["connections"] = [["it:2", f"it:{pin}", "", []] for pin in pins]
                lowering, made = lowered(value)
                self.assertEqual(lowering.faults, [], kind)
                on_board = {it["type"][len("chip-"):] for it in made["parts"]}
                own = {name: it for name, it in lowering.own_chips.items() if name in on_board}
                self.assertEqual(self.check(made, own), "accepted\n", f"{kind} {case}")


class Breadboards(unittest.TestCase):
    def test_a_column_is_five_holes_and_the_gap_parts_it(self):
        _, made = lowered(uno(part("wokwi-breadboard", "bb"), part("wokwi-led", "a"), part("wokwi-led", "b"), wires=[
            ("a:A", "bb:12t.a"), ("b:A", "bb:12t.e"), ("uno:2", "bb:12b.f"), ("a:C", "bb:12b.j")]))
        self.assertEqual(nets(made), [["a:A", "b:A"], ["a:C", "uno:2"]])

    def test_rails_are_one_each_and_boards_chain(self):
        _, made = lowered(uno(part("wokwi-breadboard-half", "one"), part("wokwi-breadboard-half", "two"), part("wokwi-led", "a"), wires=[
            ("uno:GND.1", "one:tn.1"), ("one:tn.25", "two:tn.1"), ("two:tn.25", "two:bn.3"), ("two:bn.25", "a:C"), ("uno:5V", "one:tp.1"), ("two:tp.1", "a:A")]))
        self.assertEqual(nets(made), [["a:C", "uno:GND.1"]])

    def test_the_same_hole_of_two_boards_is_two_holes(self):
        _, made = lowered(uno(part("wokwi-breadboard", "one"), part("wokwi-breadboard", "two"), part("wokwi-led", "a"), wires=[("uno:2", "one:5t.a"), ("a:A", "two:5t.a")]))
        self.assertEqual(made["connections"], [])

    def test_holes_that_are_not_there_are_told_by_wire(self):
        for board, pin in (("wokwi-breadboard-mini", "18t.a"), ("wokwi-breadboard-mini", "tp.1"), ("wokwi-breadboard-half", "31b.f"), ("wokwi-breadboard-half", "tn.26"),
                           ("wokwi-breadboard", "64t.a"), ("wokwi-breadboard", "tp.51"), ("wokwi-breadboard", "5t.f"), ("wokwi-breadboard", "5b.a"),
                           ("wokwi-breadboard", "0t.a"), ("wokwi-breadboard", "05t.a"), ("wokwi-breadboard", "5"), ("wokwi-breadboard", "mp.1")):
            lowering, _ = lowered(uno(part(board, "bb"), wires=[("uno:3", "uno:4"), ("uno:2", f"bb:{pin}")]))
            self.assertEqual(lowering.faults, [f"connection 2: bb has no hole {pin}"], pin)

    def test_an_led_with_both_legs_in_one_column_is_shorted(self):
        _, made = lowered(uno(part("wokwi-breadboard", "bb"), part("wokwi-led", "a"), wires=[("a:A", "bb:3t.a"), ("a:C", "bb:3t.b"), ("uno:2", "bb:3t.c")]))
        self.assertEqual(nets(made), [["a:A", "a:C", "uno:2"]])


class Parts(unittest.TestCase):
    def test_wires_between_parts_that_stay_are_as_they_were(self):
        value = uno(part("wokwi-led", "led1", color="red"), wires=[("uno:13", "led1:A")])
        value["connections"][0][2:] = ["green", ["v-10", "*", "h5"]]
        _, made = lowered(value)
        self.assertEqual(made["connections"], [["uno:13", "led1:A", "green", ["v-10", "*", "h5"]]])
        self.assertEqual(made["parts"][1]["attrs"], {"color": "red"})

    def test_a_net_through_a_part_that_is_left_out_stays_whole(self):
        lowering, made = lowered(uno(part("wokwi-logic-analyzer", "s"), part("wokwi-led", "a"), wires=[("uno:9", "s:D0"), ("s:D0", "a:A"), ("a:C", "s:GND")]))
        self.assertEqual(nets(made), [["a:A", "uno:9"]])
        self.assertIn("s (wokwi-logic-analyzer) only shows", lowering.notes[0])

    def test_ids_that_are_made_meet_no_other(self):
        lowering, made = lowered(uno(part("wokwi-rgb-led", "rgb"), part("wokwi-led", "rgb-r"), part("wokwi-led", "rgb-r-2"), wires=[("uno:9", "rgb:R"), ("uno:8", "rgb-r:A")]))
        self.assertEqual([it["id"] for it in made["parts"]], ["uno", "rgb-r-3", "rgb-g", "rgb-b", "rgb-r", "rgb-r-2"])
        self.assertEqual(nets(made), [["rgb-r-3:A", "uno:9"], ["rgb-r:A", "uno:8"]])

    def test_an_id_that_the_simulator_does_not_take_is_another(self):
        lowering, made = lowered(uno(part("wokwi-led", "LED rouge é"), part("wokwi-led", "LED_rouge__"), wires=[("uno:9", "LED rouge é:A")]))
        self.assertEqual(made["connections"][0][:2], ["uno:9", "LED_rouge__-2:A"])
        self.assertIn("is called", lowering.notes[0])

    def test_a_pin_that_is_several_now_is_one_net(self):
        _, made = lowered(uno(part("wokwi-rgb-led", "rgb", common="anode"), wires=[("rgb:COM", "uno:5V")]))
        self.assertEqual(nets(made), [["rgb-b:A", "rgb-g:A", "rgb-r:A", "uno:5V"]])

    def test_a_pin_that_nothing_is_on_is_a_wire_alone(self):
        _, made = lowered(uno(part("wokwi-ssd1306", "o", i2cAddress="0x3d"), wires=[("o:RST", "uno:8"), ("o:RST", "uno:9"), ("o:CLK", "uno:A5")]))
        self.assertEqual(nets(made), [["o:SCL", "uno:A5"], ["uno:8", "uno:9"]])
        self.assertEqual((made["parts"][1]["type"], made["parts"][1]["attrs"]), ("board-ssd1306", {"i2cAddress": "0x3d"}))

    def test_digits_share_their_segments(self):
        _, made = lowered(uno(part("wokwi-7segment", "d", digits="2", common="cathode"), wires=[("d:A", "uno:2"), ("d:DIG1", "uno:3"), ("d:DIG2", "uno:4")]))
        self.assertEqual(nets(made), [["d-1:A", "d-2:A", "uno:2"], ["d-1:COM", "uno:3"], ["d-2:COM", "uno:4"]])
        self.assertEqual(made["parts"][1]["attrs"], {"common": "cathode"})

    def test_one_digit_stays_as_it_is(self):
        self.assertFalse(diagrams.needs_lowering(uno(part("wokwi-7segment", "d", digits="1"))))
        self.assertTrue(diagrams.needs_lowering(uno(part("wokwi-7segment", "d", digits="2"))))

    def test_what_the_program_would_refuse_needs_lowering(self):
        for value, needs in (("512", False), ("512.5", True), ("", True)):
            self.assertEqual(diagrams.needs_lowering(uno(part("wokwi-potentiometer", "p", value=value))), needs)
        self.assertTrue(diagrams.needs_lowering(uno(part("wokwi-led", "a b"))))

    def test_a_chip_of_ours_meets_no_chip_of_the_project(self):
        lowering, made = lowered(uno(part("wokwi-dht22", "a"), part("chip-dht22", "b")), {"dht22": ["IN"]})
        self.assertEqual([it["type"] for it in made["parts"][1:]], ["chip-dht22-", "board-source", "chip-dht22"])
        self.assertEqual(lowering.own_chips, {"dht22-": ("dht22", {}, ["VCC", "SDA", "GND", "NC", "control"])})

    def test_what_cannot_be_done_is_told(self):
        cases = [
            (uno(part("wokwi-arduino-uno", "two")), "there is more than one Arduino Uno"),
            ({"version": 1, "parts": [], "connections": []}, "there is no Arduino Uno"),
            (uno(part("wokwi-led", "uno")), "uno: a second part has this id"),
            (uno(part("wokwi-pi-pico", "pico")), "pico (wokwi-pi-pico): has another microcontroller than the Uno"),
            (uno(part("board-esp32-devkit-c-v4", "esp")), "esp (board-esp32-devkit-c-v4): has another microcontroller than the Uno"),
            (uno(part("wokwi-teapot", "t")), "t (wokwi-teapot): is no type that is known here"),
            (uno(part("chip-own", "c")), "c (chip-own): the folder has no chip own: neither own.chip.wasm nor own.chip.c"),
            (uno(part("wokwi-7segment", "d", digits="5")), "d (wokwi-7segment): digits is '5', and not one of 1, 2, 3, 4"),
            (uno(part("wokwi-potentiometer", "p", value="1024")), "p: value '1024' is not within 0 and 1023"),
            (uno(part("wokwi-slide-switch", "s", value="on")), "s: value 'on' is no number"),
            (uno(part("wokwi-lcd1602", "l", pins="spi")), "l: pins 'spi' is none of full, i2c"),
            (uno(part("wokwi-dht22", "d", temperature="warm")), "d (wokwi-dht22): temperature 'warm' is no number"),
            (uno(part("wokwi-ds1307", "r", initTime="noon")), "r (wokwi-ds1307): initTime 'noon' is no time"),
            (uno(wires=[("uno:2", "led:A")]), "connection 1: there is no part led"),
            (uno(part("wokwi-led", "led"), wires=[("uno:2", "led:B")]), "connection 1: led has no pin B; it has A, C"),
            (uno(wires=[("uno:D2", "uno:3")]), "connection 1: uno has no pin D2"),
            (uno(*(part("wokwi-dht22", f"d{n}") for n in range(9))), "there are 9 parts that are chips, and 8 is the most; chips in place of Wokwi's parts are d0, d1, d2, d3, d4, d5, d6, d7, d8"),
            (uno(*(part("wokwi-led-bar-graph", f"b{n}") for n in range(7))), "there are 71 parts, and 64 is the most"),
        ]
        for value, fault in cases:
            self.assertEqual(lowered(value)[0].faults, [fault])

    def test_the_drawing_keeps_breadboards_and_the_editors_wires(self):
        value = uno(part("wokwi-rgb-led", "rgb"), part("wokwi-breadboard-half", "bb"), part("wokwi-servo", "arm"))
        value["parts"][2].update(top=-20, left=7.5)
        value["connections"] = [["uno:9", "bb:1t.a", "green", ["v5"]], ["bb:1t.b", "rgb:R", "", ["$bb"]], ["rgb:COM", "bb:tn.3", "black", ["h4", "v0"]],
                                ["bb:tn.1", "uno:GND.1", "black", []], ["arm:PWM", "bb:1t.c", "gold", ["v9"]], ["bb:30b.f", "bb:30b.g", "red", ["v0"]], ["uno:1", "$serialMonitor:RX", "", []]]
        _, made = lowered(value)
        self.assertEqual(made["drawn"]["parts"], [{"type": "wokwi-rgb-led", "id": "rgb", "attrs": {}, "as": "wokwi-rgb-led"}, {"type": "wokwi-breadboard-half", "id": "bb", "top": -20, "left": 7.5, "columns": 30, "rail": 25}])
        self.assertEqual(made["drawn"]["connections"], [
            ["uno:9", "bb:1t.a", "green", ["v5"], "uno.9"], ["bb:1t.b", "rgb:R", "", ["$bb"], "uno.9"], ["rgb:COM", "bb:tn.3", "black", ["h4", "v0"], "rgb-r.C"],
            ["bb:tn.1", "uno:GND.1", "black", [], "rgb-r.C"], ["arm:PWM", "bb:1t.c", "gold", ["v9"], "uno.9"], ["bb:30b.f", "bb:30b.g", "red", ["v0"], ""]])
        self.assertEqual(made["drawn"]["of"], diagrams.mark_of(made["connections"]))
        self.assertNotEqual(made["drawn"]["of"], diagrams.mark_of(made["connections"][1:]))
        self.assertEqual(json.loads(diagrams.text_of(made)), made)
        self.assertEqual([it["within"] for it in made["parts"] if it["type"] == "wokwi-led"], ["rgb"] * 3)
        self.assertNotIn("drawn", lowered(uno(part("wokwi-servo", "s"), wires=[("uno:9", "s:PWM")]))[1])
        _, made = lowered(uno(part("wokwi-max7219-matrix", "m"), part("wokwi-led", "a"), wires=[("uno:9", "m:DIN"), ("m:V+.2", "a:A")]))
        self.assertEqual((nets(made), made["drawn"]["connections"][1][:2]), ([["a:A", "m:V+"], ["m:DIN", "uno:9"]], ["m:V+.2", "a:A"]))

    def test_pixels_in_a_chain_are_one_chip(self):
        chain = [part("wokwi-neopixel", "a"), part("wokwi-led-ring", "b", pixels="12"), part("wokwi-neopixel-matrix", "c", rows="4", cols="4")]
        wires = [("uno:6", "a:DIN"), ("a:DOUT", "b:DIN"), ("c:DIN", "b:DOUT"), ("c:DOUT", "uno:7")]
        lowering, made = lowered(uno(*chain, wires=wires))
        self.assertEqual([it["type"] for it in made["parts"][1:]], ["chip-ws2812-29x1"])
        self.assertEqual(nets(made), [["a:DIN", "uno:6"], ["a:DOUT", "uno:7"]])
        slices = [made["parts"][1]["slice"], *(it["slice"] for it in made["drawn"]["parts"])]
        self.assertEqual(slices, [{"of": "a", "from": 0, "count": 1}, {"of": "a", "from": 1, "count": 12}, {"of": "a", "from": 13, "count": 16}])
        self.assertEqual([it["as"] for it in made["drawn"]["parts"]], ["wokwi-led-ring", "wokwi-neopixel-matrix"])
        branched, made = lowered(uno(*chain, wires=[*wires, ("a:DOUT", "uno:8")]))
        self.assertEqual([it["type"] for it in made["parts"][1:]], ["chip-ws2812-1x1", "chip-ws2812-28x1"], "a pin that is used otherwise too is a pin")
        self.assertIn(["a:DOUT", "b:DIN", "uno:8"], nets(made))
        self.assertEqual([*lowering.faults, *branched.faults], [])

    def test_parts_that_only_show_leave_a_full_board(self):
        lowering, made = lowered(uno(*(part("wokwi-servo", f"s{n}") for n in range(9)), part("wokwi-dht22", "d"), wires=[("uno:2", f"s{n}:PWM") for n in range(9)]))
        self.assertEqual(sum(it["type"].startswith("chip-") for it in made["parts"]), 8)
        self.assertEqual([(it["id"], it["type"], it["as"]) for it in made["drawn"]["parts"]], [("s7", "chip-servo", "wokwi-servo"), ("s8", "chip-servo", "wokwi-servo")])
        self.assertEqual(made["drawn"]["connections"][-1], ["uno:2", "s8:PWM", "green", [], "uno.2"])
        self.assertIn("s8 (wokwi-servo) is shown by the page alone: a board has room for 8 chips", lowering.notes)

    def test_a_display_has_the_size_that_its_part_says(self):
        for attrs, fault in (({"rows": "300", "cols": "300"}, "m (wokwi-neopixel-matrix): its display: a display has 1 to 65536 pixels"), ({"rows": "0"}, "m (wokwi-neopixel-matrix): its display: a display has 1 to 65536 pixels"), ({"rows": "two"}, "m (wokwi-neopixel-matrix): its display: is no number")):
            self.assertEqual(lowered(uno(part("wokwi-neopixel-matrix", "m", **attrs)))[0].faults, [fault])
        lowering, _ = lowered(uno(part("wokwi-lcd2004", "a", pins="full"), part("wokwi-lcd2004", "b", pins="i2c")))
        self.assertEqual([(name, len(pins)) for name, (_, _, pins) in lowering.own_chips.items()], [("hd44780-20x5", 16), ("hd44780-20x5-", 4)])

    def test_steps_that_belong_to_another_drawing_go(self):
        value = uno(part("wokwi-relay-module", "relay"), part("wokwi-led", "led"), part("wokwi-ds1307", "clock"))
        value["connections"] = [["relay:IN", "led:A", "green", ["v7"]], ["clock:5V", "led:C", "red", ["v7"]], ["led:A", "led:C", "blue", ["h3"]], ["clock:SQW", "uno:2", "gray"]]
        self.assertEqual([wire[2:] for wire in lowered(value)[1]["connections"]], [["green", []], ["red", []], ["blue", ["h3"]], ["gray"]])

    def test_a_nano_is_drawn_as_one_with_the_steps_of_its_wires(self):
        value = uno(part("wokwi-led", "led"))
        value["parts"][0] = part("wokwi-arduino-nano", "nano")
        value["connections"] = [["nano:13.2", "led:A", "green", ["v7"]], ["led:C", "nano:GND.3", "black", ["h3"]]]
        made = lowered(value)[1]
        self.assertEqual((made["parts"][0]["type"], made["parts"][0]["as"]), ("wokwi-arduino-uno", "wokwi-arduino-nano"))
        self.assertEqual([wire[:4] for wire in made["drawn"]["connections"]], value["connections"])
        self.assertEqual([wire[:2] for wire in made["connections"]], [["nano:13", "led:A"], ["led:C", "nano:GND.3"]])

    def test_lowering_what_is_lowered_changes_nothing(self):
        value = uno(part("wokwi-rgb-led", "rgb"), part("wokwi-breadboard", "bb"), wires=[("uno:9", "bb:1t.a"), ("bb:1t.b", "rgb:R"), ("rgb:COM", "uno:GND.1")])
        _, once = lowered(value)
        self.assertEqual(lowered(json.loads(diagrams.text_of(once)))[1], once)


class Values(unittest.TestCase):
    def test_an_ntc_is_10_kiloohm_at_25_degrees(self):
        self.assertEqual(formulas.ntc("25", {}), "512")
        self.assertLess(int(formulas.ntc("80", {})), 150)
        self.assertGreater(int(formulas.ntc("-24", {})), 900)
        self.assertEqual(formulas.ntc("-273", {}), "1023")

    def test_a_photoresistor_has_rl10_at_10_lux(self):
        self.assertEqual(formulas.light("10", {}), "852")
        self.assertEqual([formulas.dark(lux, {}) for lux in ("1", "100", "1000")], ["1", "0", "0"])
        self.assertEqual(formulas.light("0", {}), "1023")

    def test_times(self):
        self.assertEqual(formulas.time("2000-01-01T00:00:00Z", {}), formulas.time("now", {}))
        self.assertEqual(formulas.time("1970-01-01T01:00:00+01:00", {}), "0")
        self.assertRaises(ValueError, formulas.time, "1969-12-31", {})

    def test_frequencies(self):
        self.assertEqual([formulas.half_period(text, {}) for text in ("1", "10k", "1M", "0.5")], ["500000000", "50000", "500", "1000000000"])
        for text in ("0", "20M", "x", ""):
            self.assertRaises(ValueError, formulas.half_period, text, {})


class Folders(unittest.TestCase):
    def setUp(self):
        self.work = tempfile.TemporaryDirectory()
        self.folder = os.path.join(self.work.name, "project")
        os.mkdir(self.folder)

    def tearDown(self):
        self.work.cleanup()

    def put(self, name, text):
        with open(os.path.join(self.folder, name), "w", encoding="utf-8") as file:
            file.write(text)

    def lower(self, **words):
        return lower.lower(self.folder, os.path.join(self.work.name, "out"), **words)

    def made(self, name):
        with open(os.path.join(self.work.name, "out", name), encoding="utf-8") as file:
            return file.read()

    def test_files_that_are_no_project(self):
        self.assertIn("diagram.json is missing", self.lower()[0])
        for text in ("{", "[]", '{"version": 2, "parts": [], "connections": []}', '{"version": 1, "parts": [1], "connections": []}', '{"version": 1, "parts": []}',
                     '{"version": 1, "parts": [], "connections": [["a", "b:c"]]}', '{"version": 1, "parts": [{"type": "a", "id": "b", "attrs": 1}], "connections": []}', "[" * 100000):
            self.put("diagram.json", text)
            self.assertEqual(len(self.lower()), 1, text[:60])
        self.put("diagram.json", json.dumps(uno()))
        self.assertIn("has no sketch, and no firmware", self.lower()[0])
        self.put("wokwi.toml", "[wokwi]\nfirmware = 3\n")
        self.assertIn("no text", self.lower()[0])
        self.put("wokwi.toml", "[wokwi")
        self.assertIn("wokwi.toml", self.lower()[0])
        self.assertFalse(os.path.exists(os.path.join(self.work.name, "out", "diagram.json")))

    def test_firmware_that_is_there_is_taken(self):
        self.put("diagram.json", "\ufeff" + json.dumps(uno()))
        self.put("any.hex", EMPTY_HEX)
        self.assertEqual(self.lower(), [])
        self.assertEqual(self.made("firmware.hex"), EMPTY_HEX)
        self.put("other.hex", EMPTY_HEX + EMPTY_HEX)
        self.assertIn("more than one HEX file", self.lower()[0])
        self.put("wokwi.toml", "[wokwi]\nversion = 1\nfirmware = 'other.hex'\n")
        self.assertEqual(self.lower(), [])
        self.assertEqual(self.made("firmware.hex"), EMPTY_HEX + EMPTY_HEX)

    def test_it_does_not_write_over_what_it_reads(self):
        self.put("diagram.json", json.dumps(uno()))
        self.put("any.hex", EMPTY_HEX)
        self.assertIn("is the folder itself", lower.lower(self.folder, self.folder)[0])

    def test_chips_that_lack_something(self):
        self.put("any.hex", EMPTY_HEX)
        self.put("diagram.json", json.dumps(uno(part("chip-a", "it"))))
        self.put("a.chip.c", "")
        self.assertEqual(self.lower(), [f"chip a: a.chip.json is missing in {self.folder}"])
        self.put("a.chip.json", '{"pins": [1]}')
        self.assertIn("no array `pins` of texts", self.lower()[0])
        self.put("wokwi.toml", "[wokwi]\nversion = 1\nfirmware = 'any.hex'\n[[chip]]\nname = 'b'\nbinary = 'b.wasm'\n")
        self.assertEqual(self.lower(), [f"chip b is not built and has no source: looked for {self.folder}/b.wasm, b.chip.wasm and b.chip.c in {self.folder}"])

    def test_anyway_leaves_out_what_cannot_be_done(self):
        self.put("any.hex", EMPTY_HEX)
        self.put("diagram.json", json.dumps(uno(part("wokwi-microsd-card", "sd"), part("wokwi-led", "a"), wires=[("uno:13", "sd:SCK"), ("uno:13", "a:A")])))
        self.assertEqual(self.lower(), ["sd (wokwi-microsd-card): is not there"])
        self.assertEqual(self.lower(anyway=True), [])
        self.assertEqual(len(json.loads(self.made("diagram.json"))["parts"]), 2)
        self.put("diagram.json", json.dumps({"version": 1, "parts": [part("wokwi-arduino-mega", "mega")], "connections": []}))
        self.assertEqual(self.lower(anyway=True), ["mega (wokwi-arduino-mega): has another microcontroller than the Uno", "there is no Arduino Uno"])

    def test_names_of_chips_stay_in_the_folder(self):
        self.put("any.hex", EMPTY_HEX)
        self.put("x.json", '{"name": "x", "pins": ["A"]}')
        self.put("x.wasm", "x")
        self.put("diagram.json", json.dumps(uno()))
        self.put("wokwi.toml", "[wokwi]\nversion = 1\nfirmware = 'any.hex'\n[[chip]]\nname = '../../x'\nbinary = 'x.wasm'\n")
        self.assertEqual(self.lower(), [])
        self.assertEqual(sorted(os.listdir(os.path.join(self.work.name, "out"))), ["chip-______x.json", "chip-______x.wasm", "diagram.json", "firmware.hex", "wokwi.toml"])


class Sketches(unittest.TestCase):
    def declared(self, text):
        return sketch.prototypes(text)[1]

    def test_functions_are_declared(self):
        self.assertEqual(self.declared("int one(int a) { return a; }\nvoid two() {}\n"), ["int one(int a);", "void two();"])
        self.assertEqual(self.declared("static unsigned long *f(const char *a, void (*g)(int)) {\n}\n"), ["static unsigned long * f(const char *a, void (*g)(int));"])
        self.assertEqual(self.declared("std::pair<int, int> f(int a = 3, int b = 4)\n{\n}\n"), ["std::pair<int, int> f(int a, int b);"])

    def test_what_is_no_function_is_not(self):
        for text in ("class A { int f() { return 1; } };", "struct A f;", "// int f() {}\n", "/* int f() {} */", 'char *s = "int f() {";', "#define F int f() {\n",
                     "template <typename T> T f(T a) { return a; }", "ISR(TIMER1_COMPA_vect) {}", "int a[] = {1};", "enum E { A, B };", "A::A(int b) {}", "int f();"):
            self.assertEqual(self.declared(text), [], text)

    def test_what_may_not_be_there_is_not_declared(self):
        text = "int x;\n#ifdef ESP32\n# if A\n# endif\nvoid f(portMUX_TYPE a) {\n}\n#endif\nvoid g() {\n}\n"
        self.assertEqual(sketch.prototypes(text), (text.index("#ifdef"), ["void g();"]))

    def test_lines_stay_as_they_are(self):
        with tempfile.TemporaryDirectory() as folder:
            with open(os.path.join(folder, "a.ino"), "w", encoding="utf-8") as file:
                file.write("int x;\n\nvoid setup() {\n  later();\n}\nvoid loop() {}\n")
            with open(os.path.join(folder, "b.ino"), "w", encoding="utf-8") as file:
                file.write("void later() {}\n")
            text = sketch.joined(folder, "a.ino").splitlines()
        self.assertEqual(text[:2], ["#include <Arduino.h>", '#line 1 "a.ino"'])
        self.assertEqual(text[text.index("void setup() {") - 1], '#line 3 "a.ino"')
        self.assertIn("void later();", text)

    def test_the_main_file(self):
        with tempfile.TemporaryDirectory() as folder:
            self.assertIsNone(sketch.main_file(folder))
            for name, text in (("b.ino", "void setup() {}"), ("a.ino", "// void setup() {}")):
                with open(os.path.join(folder, name), "w", encoding="utf-8") as file:
                    file.write(text)
            self.assertEqual(sketch.main_file(folder), "b.ino")
            os.rename(os.path.join(folder, "a.ino"), os.path.join(folder, "sketch.ino"))
            self.assertEqual(sketch.main_file(folder), "sketch.ino")

    def test_platformio_has_it_in_src(self):
        with tempfile.TemporaryDirectory() as folder:
            self.assertEqual(sketch.sketch_of(folder), (folder, None))
            place = os.path.join(folder, "src")
            os.makedirs(os.path.join(folder, "lib", "Own"))
            os.mkdir(place)
            for name, text in (("src/main.cpp", "#include <Own.h>\nvoid setup() {}\nvoid loop() {}\n"), ("lib/Own/Own.h", "")):
                with open(os.path.join(folder, name), "w", encoding="utf-8") as file:
                    file.write(text)
            self.assertEqual(sketch.sketch_of(folder), (place, "main.cpp"))
            libraries = sketch.Libraries(place)
            libraries.follow("#include <Own.h>\n")
            self.assertEqual(libraries.used, [os.path.join(folder, "lib", "Own")])

    def test_a_library_that_is_missing_is_told(self):
        with tempfile.TemporaryDirectory() as folder:
            with open(os.path.join(folder, "libraries.txt"), "w", encoding="utf-8") as file:
                file.write("# Wokwi Library List\n\nServo@1.2\n")
            text = sketch.missing_library("a.ino:1:10: fatal error: Servo.h: No such file or directory", folder)
        self.assertIn('no library here has Servo.h. The library is called Servo. Install it with', text)
        self.assertIn('\n    arduino-cli lib install "Servo"\n', text)
        for header, name in (("Adafruit_NeoPixel.h", "Adafruit NeoPixel"), ("Own.h", "NAME")):
            self.assertIn(f'arduino-cli lib install "{name}"', sketch.missing_library(f"a.ino:1:10: fatal error: {header}: No such file or directory", "/"))
        self.assertEqual(sketch.missing_library("a.ino:1: error: x", "/"), "a.ino:1: error: x")

    def library(self, *path, header=None, text="", properties=None):
        """A library of one header in a folder."""
        folder = os.path.join(*path)
        os.makedirs(folder, exist_ok=True)
        with open(os.path.join(folder, header or path[-1] + ".h"), "w", encoding="utf-8") as file:
            file.write(text)
        if properties:
            with open(os.path.join(folder, "library.properties"), "w", encoding="utf-8") as file:
                file.write(properties)
        return folder

    def test_libraries_are_found_where_users_have_them(self):
        with tempfile.TemporaryDirectory() as home, unittest.mock.patch.dict(os.environ, {"HOME": home, "ARDUINO_LIBRARIES": "", "ARDUINO_DIRECTORIES_USER": ""}):
            project = os.path.join(home, "work", "it")
            os.makedirs(project)
            for file, text in ((".arduino15/arduino-cli.yaml", f"directories:\n  data: /x\n  user: '{home}/moved'\n"), (".arduino15/preferences.txt", f"a=b\nsketchbook.path={home}/old\n")):
                os.makedirs(os.path.join(home, ".arduino15"), exist_ok=True)
                with open(os.path.join(home, file), "w", encoding="utf-8") as out:
                    out.write(text)
            places = ["work/it/libraries", "work/it/lib", "work/it/.pio/libdeps/uno", "work/it/.pio/libdeps/nano", "moved/libraries", "old/libraries", "Arduino/libraries", "Documents/Arduino/libraries", ".platformio/lib", ".arduino15/libraries"]
            for place in reversed(places):
                found = self.library(home, place, "It")
                libraries = sketch.Libraries(project)
                libraries.follow("#include <It.h>\n")
                self.assertEqual(libraries.used, [found], place)
            os.environ["ARDUINO_LIBRARIES"] = os.path.join(home, "more")
            self.assertEqual([os.path.relpath(place, home) for place in sketch.library_folders(project)][:5], places[:4] + ["moved/libraries"], "a folder that is not there is none")

    def test_of_two_libraries_the_one_that_is_called_so_and_is_for_this_processor(self):
        with tempfile.TemporaryDirectory() as folder:
            place = os.path.join(folder, "libraries")
            self.library(place, "A_copy", header="It.h")
            called = self.library(place, "It-master", header="It.h")
            self.library(place, "It", properties="name=It\narchitectures=esp32, esp8266\n")
            self.library(place, "Z", properties="architectures=samd,avr\n")
            libraries = sketch.Libraries(folder)
            libraries.follow("#include <It.h>\n#include <Z.h>\n")
            self.assertEqual(libraries.used, [called, os.path.join(place, "Z")])

    def test_a_small_version_is_told(self):
        with tempfile.TemporaryDirectory() as home, unittest.mock.patch.dict(os.environ, {"HOME": home, "ARDUINO_LIBRARIES": ""}):
            libraries = sketch.Libraries(home)
            libraries.follow("#include <Keypad.h>\n#include <LiquidCrystal.h>\n")
            self.assertEqual(libraries.small(), ["Keypad", "LiquidCrystal"])
            own = self.library(home, "libraries", "Keypad")
            libraries = sketch.Libraries(home)
            libraries.follow("#include <Keypad.h>\n")
            self.assertEqual((libraries.used, libraries.small()), ([own], []))
        fault = sketch.missing_call("a.ino:3: error: 'class Keypad' has no member named 'bitMap'", ["Keypad"])
        self.assertIn('Keypad is Mudflatjar\'s own small version (tools/wokwi/libraries), which may lack this call. Install the library itself, and it is taken: arduino-cli lib install "Keypad"', fault)
        self.assertEqual(sketch.missing_call("a.ino:3: error: expected ';'", ["Keypad"]), "a.ino:3: error: expected ';'")

    def stand_in(self, folder, name, text):
        """A command of a name that a script stands for."""
        path = os.path.join(folder, name)
        os.makedirs(folder, exist_ok=True)
        with open(path, "w", encoding="utf-8") as file:
            file.write("#!/bin/sh\n" + text)
        os.chmod(path, 0o755)

    def test_libraries_are_installed_by_arduino_cli(self):
        with tempfile.TemporaryDirectory() as folder:
            said = []
            sketch.install(folder, said.append)
            self.assertIn("nothing to install", said[0])
            with open(os.path.join(folder, "libraries.txt"), "w", encoding="utf-8") as file:
                file.write("# Wokwi Library List\n\nAdafruit NeoPixel@1.10\nOneWire\n")
            with unittest.mock.patch.dict(os.environ, {"PATH": os.path.join(folder, "bin")}):
                with self.assertRaisesRegex(sketch.BuildFault, "no arduino-cli to install Adafruit NeoPixel, OneWire"):
                    sketch.install(folder, said.append)
                self.stand_in(os.path.join(folder, "bin"), "arduino-cli", 'for word in "$@"; do printf "[%s]" "$word"; done >>said\n')
                sketch.install(folder, said.append)
                with open(os.path.join(folder, "said"), encoding="utf-8") as file:
                    self.assertEqual(file.read(), "[lib][install][Adafruit NeoPixel][lib][install][OneWire]")
                self.stand_in(os.path.join(folder, "bin"), "arduino-cli", "echo 'Library OneWire not found'; exit 1\n")
                with self.assertRaisesRegex(sketch.BuildFault, "Library OneWire not found"):
                    sketch.install(folder, said.append)

    @unittest.skipUnless(shutil.which("avr-g++") and os.path.isdir(sketch.BASE), "no avr-g++")
    def test_the_compiler_of_the_ide_is_preferred(self):
        with tempfile.TemporaryDirectory() as home:
            packages, out = os.path.join(home, ".arduino15", "packages", "arduino"), os.path.join(home, "out.hex")
            for version in ("1.8.6", "1.8.10"):
                os.makedirs(os.path.join(packages, "hardware", "avr"), exist_ok=True)
                os.symlink("/usr/share/arduino/hardware/arduino/avr", os.path.join(packages, "hardware", "avr", version))
            for name in ("avr-gcc", "avr-g++", "avr-gcc-ar", "avr-objcopy"):
                self.stand_in(os.path.join(packages, "tools", "avr-gcc", "7.3.0", "bin"), name, f'echo "$*" >>{home}/said\nexec {shutil.which(name)} "$@"\n')
            self.stand_in(os.path.join(home, "cli"), "arduino-cli", "echo \"Error during build: Platform 'arduino:avr' not found: platform not installed\"; exit 1\n")
            with open(os.path.join(home, "a.ino"), "w", encoding="utf-8") as file:
                file.write("void setup() {}\nvoid loop() {}\n")
            for path in (os.environ["PATH"], os.path.join(home, "cli") + ":" + os.environ["PATH"]):
                ran = subprocess.run([sys.executable, "-B", os.path.join(HERE, "sketch.py"), os.path.join(home, "a.ino"), out], env=dict(os.environ, HOME=home, PATH=path, XDG_CACHE_HOME=os.path.join(home, "cache")), capture_output=True, text=True, check=False)
                self.assertEqual(ran.returncode, 0, ran.stderr)
                with open(os.path.join(home, "said"), encoding="utf-8") as file:
                    self.assertIn(f"-I{packages}/hardware/avr/1.8.10/cores/arduino", file.read())
                os.remove(out)


class Firmware(unittest.TestCase):
    def elf(self, segments, machine=83):
        head = b"\x7fELF\x01\x01" + bytes(10) + (2).to_bytes(2, "little") + machine.to_bytes(2, "little") + bytes(8) + (52).to_bytes(4, "little") + bytes(10)
        head += (32).to_bytes(2, "little") + len(segments).to_bytes(2, "little") + bytes(6)
        rows, data, at = b"", b"", 52 + 32 * len(segments)
        for address, content in segments:
            rows += b"".join(it.to_bytes(4, "little") for it in (1, at + len(data), 0, address, len(content), len(content), 5, 2))
            data += content
        return head + rows + data

    def test_an_elf_file_is_the_hex_file_of_its_flash(self):
        image = firmware.image_of_elf(self.elf([(0, bytes(range(20))), (0x800100, b"data"), (20, b"\xff")]))
        self.assertEqual(firmware.hex_of(image), ":10000000000102030405060708090A0B0C0D0E0F78\n:0400100010111213A6\n:01001400FFEC\n:00000001FF\n")

    def test_what_is_no_such_file(self):
        for data in (self.elf([], machine=62), self.elf([(0, b"abc")])[:-1], self.elf([(0, b"abc")])[:60], b"\x7fELF"):
            self.assertRaises(ValueError, firmware.image_of_elf, data)
        self.assertRaises(ValueError, firmware.hex_of, [(0x7FFF, b"ab")])


class Typing(unittest.TestCase):
    def test_numbers_of_a_module(self):
        for number in (0, 1, 63, 64, 127, 128, 8192, 65536, 2**31 - 1):
            self.assertEqual(typist.read_leb(typist.leb(number), 0), (number, len(typist.leb(number))))
            for signed in (number, -number):
                self.assertEqual(typist.read_leb(typist.signed_leb(signed), 0, signed=True)[0], signed)

    def test_too_much_is_refused(self):
        typist.module([(0, bytes(16000))])
        self.assertRaises(ValueError, typist.module, [(0, bytes(16384))])


class Waves(unittest.TestCase):
    HEAD = "$timescale 100 ps $end\n$scope module board $end\n$var wire 1 ! uno.1 $end\n$var wire 1 \" led.A $end\n$upscope $end\n$enddefinitions $end\n"

    def wave(self, body):
        with tempfile.NamedTemporaryFile("w", suffix=".vcd", delete=False) as file:
            file.write(self.HEAD + body)
        try:
            return wave.Wave(file.name, ("uno.1", "led.A", "none.B"))
        finally:
            os.unlink(file.name)

    def test_levels_edges_and_pulses(self):
        it = self.wave('#0\n$dumpvars\nz!\n0"\n$end\n#6250\n1"\n#12500\n0"\n1!\n#25000\n1"\n#62500\n')
        self.assertEqual(it.missing, ["none.B"])
        self.assertEqual(it.level("led.A", 9), ("0", 0))
        self.assertEqual(it.level("led.A", 10), ("1", 10))
        self.assertEqual([it.edge("led.A", "1", start) for start in (0, 10, 11, 40, 41)], [10, 10, 40, 40, None])
        self.assertEqual(it.edge("led.A", "0", 0), 0)
        self.assertEqual([it.pulse("led.A", "1", start) for start in (0, 10, 11)], [(10, 20), (10, 20), None])
        self.assertEqual(it.pulse("led.A", "0", 15), (20, 40))

    def line(self, data, bit, start=100, gap=0):
        changes, at = [(0, "z"), (10, "1")], start
        for byte in data:
            for n in range(10):
                value = str((byte << 1 | 512) >> n & 1)
                if changes[-1][1] != value:
                    changes.append((at + n * bit, value))
            at += 10 * bit + gap
        return changes

    def test_frames_of_all_bytes_at_any_speed(self):
        for data, bit, gap in ((bytes(range(256)), 139, 0), (b"\x00\xff\x00\x80", 1667, 5), (b"UUUU", 8, 0), (b"\x00" * 4, 16, 7)):
            found = wave.frames(self.line(data, bit, gap=gap), data)
            self.assertEqual(found, [(100 + n * (10 * bit + gap), bit) for n in range(len(data))])

    def test_other_frames_are_none(self):
        line = self.line(b"abc", 100)
        self.assertIsNone(wave.frames(line, b"abd"))
        self.assertIsNone(wave.frames(line, b"abcd"))
        self.assertIsNone(wave.frames([(0, "0")], b"a"))



class Shown(unittest.TestCase):
    """What a scenario asks of displays, from the lines of a report."""

    def test_a_pixel_of_a_matrix_and_of_a_chain(self):
        matrix = {"parts": [{"id": "m", "type": "chip-ws2812-3x2", "as": "wokwi-neopixel-matrix"}]}
        report = ["chip m alive", "chip m row 1 010203FF0A0B0CFF000000FF"]
        self.assertEqual([shown.pixel(report, matrix, "m", n) for n in (0, 3, 4, 6, -1)], ["#000000", "#010203", "#0A0B0C", None, None])
        lowering, made = lowered(uno(part("wokwi-neopixel", "a"), part("wokwi-neopixel", "b"), wires=[("uno:6", "a:DIN"), ("a:DOUT", "b:DIN")]))
        self.assertEqual(lowering.faults, [])
        report = ["chip a alive", "chip a row 0 010203FF0A0B0CFF"]
        self.assertEqual([shown.pixel(report, made, *of) for of in (("a", 0), ("b", 0), ("a", 1), ("uno", 0), ("c", 0))], ["#010203", "#0A0B0C", None, None, None])

    def test_words(self):
        report = ["uno uno pc 0x0000 run", "chip s alive", "chip s row 0 5AC005FF", "chip t alive", "chip own alive"]
        kinds = {"s": "wokwi-servo", "t": "wokwi-servo"}
        self.assertEqual(shown.said(report, kinds), {"s": "90 degrees, pulse 1472 us", "t": "no pulse"})


if __name__ == "__main__":
    unittest.main()
