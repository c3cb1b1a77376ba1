#!/usr/bin/env python3
"""What a hand does in words of the editor becomes lines of a script (moves.py): each kind of control, and what is wrong with a line.

tools/web/test/test_same.py compares the page's code with it, and tools/wokwi/projects has boards that such scripts move."""

import unittest

import diagram as diagrams
import moves

UNO = {"type": "wokwi-arduino-uno", "id": "uno"}


def board(**kinds: str | tuple[str, dict]) -> dict:
    """What becomes of an Uno and parts by their ids."""
    parts = [
        {"type": kind, "id": name} if isinstance(kind, str) else {"type": kind[0], "id": name, "attrs": kind[1]}
        for name, kind in kinds.items()
    ]
    return diagrams.Lowering({"version": 1, "parts": [UNO, *parts], "connections": []}, {}).outcome()


def made(text: str, **kinds: str | tuple[str, dict]) -> list[str]:
    """The lines that a script becomes on a board of these parts."""
    return moves.expanded(text, board(**kinds))[0].splitlines()


def fault(text: str, **kinds: str | tuple[str, dict]) -> str:
    """What is said of a script."""
    try:
        moves.expanded(text, board(**kinds))
    except moves.Fault as found:
        return str(found)
    return ""


class Controls(unittest.TestCase):
    def test_a_pulse_is_as_long_as_the_place(self) -> None:
        for value, cycles in (("2", 1), ("2.1", 2), ("2.04", 1), ("400", 3981), ("120", 1181)):
            self.assertEqual(
                made(f"10us set u distance {value}\n", u="wokwi-hc-sr04"),
                ["10us set u-control 1", f"{moves.time_text(160 + cycles)} set u-control 0"],
            )

    def test_controls_of_one_chip_have_places_after_one_another(self) -> None:
        lengths = {}
        for name, value in (("temperature", "-40"), ("temperature", "80"), ("humidity", "0"), ("humidity", "100")):
            lines = made(f"0us set d {name} {value}\n", d="wokwi-dht22")
            lengths[name, value] = int(lines[1].split("cy")[0])
        self.assertEqual(list(lengths.values()), [1, 1201, 1202, 2202])
        for kind, rule in diagrams.table()["lowered"].items():
            before = 0
            for name, control in rule.get("controls", {}).items():
                if "places before" in control:
                    self.assertEqual(control["places before"], before, f"{kind} {name}")
                    before += moves.nearest(control["max"], control) + 1

    def test_two_moves_at_once_come_one_after_the_other(self) -> None:
        lines = made("0us set d temperature -40\n0us set d humidity 0\n", d="wokwi-dht22")
        self.assertEqual(
            lines, ["0us set d-control 1", "1cy set d-control 0", "2cy set d-control 1", "1204cy set d-control 0"]
        )

    def test_wipers_and_switches_are_set_by_formula(self) -> None:
        self.assertEqual(made("5us set n temperature 25\n", n="wokwi-ntc-temperature-sensor"), ["5us set n 512"])
        self.assertEqual(
            made("5us set p lux 10\n6us set p lux 100000\n", p=("wokwi-photoresistor-sensor", {"threshold": "4"})),
            ["5us set p 852", "5us set p-digital 1", "6us set p 8", "6us set p-digital 0"],
        )
        self.assertEqual(
            made("5us set g voltage 2.6\n", g="wokwi-gas-sensor"), ["5us set g 532", "5us set g-digital 0"]
        )
        self.assertEqual(
            made("1us set j x -1\n2us set j y -1\n3us set j pressed 1\n", j="wokwi-analog-joystick"),
            ["1us set j-x 1023", "2us set j-y 0", "3us press j-sel"],
        )

    def test_a_motion_lasts_and_is_followed_by_a_blind_time(self) -> None:
        sensor = {"delayTime": "0.001", "inhibitTime": "0.002"}
        script = "0us set p motion 1\n500us set p motion 1\n2000us set p motion 1\n3500us set p motion 1\n"
        both = ["0us set p 1", "1500us set p 0", "3500us set p 1", "4500us set p 0"]
        self.assertEqual(made(script, p=("wokwi-pir-motion-sensor", sensor)), both)
        once = made(script, p=("wokwi-pir-motion-sensor", {**sensor, "retrigger": "0"}))
        self.assertEqual(once[:2], ["0us set p 1", "1000us set p 0"])
        self.assertEqual(
            made("0us set p motion 1\n9us set p motion 0\n", p="wokwi-pir-motion-sensor"),
            ["0us set p 1", "5000000us set p 0"],
        )

    def test_an_encoder_turns_both_ways(self) -> None:
        right = made("0us set k turn 1\n", k="wokwi-ky-040")
        self.assertEqual(right, ["0us set k-clk 0", "2000us set k-dt 0", "4000us set k-clk 1", "6000us set k-dt 1"])
        left = made("0us set k turn -2\n", k="wokwi-ky-040")
        self.assertEqual([line.split()[2] for line in left], ["k-dt", "k-clk"] * 4)
        self.assertEqual(made("0us set k turn 0\n", k="wokwi-ky-040"), [])

    def test_a_frame_is_read_back_from_its_edges(self) -> None:
        for key, command in (("power", 162), ("9", 82)):
            lines = made(
                f"16us set r key {key}\n", r="wokwi-ir-remote", one="wokwi-ir-receiver", two="wokwi-ir-receiver"
            )
            times = [
                (int(line[: line.index("us")]) * 16 if "us" in line.split()[0] else int(line.split("cy")[0]))
                for line in lines
                if line.split()[2] == "one"
            ]
            self.assertEqual(len(times), 68)
            self.assertEqual((times[1] - times[0], times[2] - times[1]), (144000, 72000))
            bits = [round((times[n + 1] - times[n]) / 9000) == 3 for n in range(3, 67, 2)]
            code = sum(bit << place for place, bit in enumerate(bits))
            self.assertEqual(code, 0xFF00 | command << 16 | (255 - command) << 24)
        twice = made("0us set one key 1\n1us set one key 2\n", one="wokwi-ir-receiver")
        self.assertIn("108000us set one 0", twice)

    def test_a_contact_bounces_and_then_stays(self) -> None:
        lines = made("10us press b bounce\n3000us release b bounce\n", b="wokwi-pushbutton")
        words = [line.split()[1] for line in lines]
        self.assertEqual(words, ["press", "release"] * 3 + ["press"] + ["release", "press"] * 2 + ["release"])
        self.assertEqual((lines[0], lines[6], lines[11]), ("10us press b", "1220us press b", "3580us release b"))

    def test_parts_of_the_simulator_have_the_controls_of_scenarios(self) -> None:
        kinds = {"p": "wokwi-potentiometer", "d": "wokwi-dip-switch-8", "k": "wokwi-membrane-keypad"}
        script = "0us set p position 0.5\n1us set d 3 1\n2us set d 1 1\n3us set d 3 0\n4us set k r2c1 1\n"
        self.assertEqual(
            made(script, **kinds), ["0us set p 512", "1us set d 4", "2us set d 5", "3us set d 1", "4us set k 16"]
        )


class Chips(unittest.TestCase):
    """Controls of a project's own chip, by its JSON file."""

    def rules(self, *controls: object) -> tuple[dict[str, dict], list[str]]:
        return moves.chip_rules({"name": "x", "pins": [], "controls": list(controls)})

    def test_places_come_one_after_another(self) -> None:
        level = {"id": "level", "label": "Level", "type": "range", "min": -10, "max": 90, "step": 5}
        found, faults = self.rules(level, {"id": "offset", "min": 0, "max": 20.0})
        self.assertEqual(faults, [])
        self.assertEqual(
            [(it["min"], it["step"], it["places before"]) for it in found.values()], [(-10, 5, 0), (0, 1, 21)]
        )
        record = {"c": {"type": "chip-x", "attrs": {}, "ids": {"-control": "c-control"}, "rules": found}}
        parts = {"parts": [{"id": "c", "type": "chip-x"}], "connections": [], "controls": record}
        text, _ = moves.expanded("0us set c level 90\n1us set c offset 0\n", parts)
        lines = ["0us set c-control 1", "21cy set c-control 0", "22cy set c-control 1", "44cy set c-control 0"]
        self.assertEqual(text.splitlines(), lines)

    def test_what_cannot_be_moved_is_said(self) -> None:
        fine = {"min": 0, "max": 1}
        for control, text in (
            ({"id": "a b", **fine}, "control a b: a control has an `id` of letters, digits and _ of its own"),
            (7, "control None: a control has an `id` of letters, digits and _ of its own"),
            ({"id": "a"}, "control a: `min`, `max` and `step` are whole numbers here"),
            ({"id": "a", "min": 0, "max": 1, "step": 0.1}, "control a: `min`, `max` and `step` are whole numbers here"),
            ({"id": "a", "min": 2, "max": 1}, "control a: `min`, `max` and `step` are whole numbers here"),
            ({"id": "a", "min": 0, "max": 20000}, "control a: a chip has 8 controls of 20,000 places at most"),
        ):
            self.assertEqual(self.rules(control), ({}, [text]))
        many, faults = self.rules(*({"id": f"a{n}", **fine} for n in range(9)))
        self.assertEqual((len(many), len(faults)), (8, 1))
        self.assertEqual(moves.chip_rules({"controls": 3}), ({}, []))


class Scripts(unittest.TestCase):
    def test_a_script_without_such_lines_is_as_it_was(self) -> None:
        for text in ("", "# set a b c\n", "5us press b\r\n\r\n1us press nobody", "nothing at all", "5us set b 1\n"):
            self.assertEqual(moves.expanded(text, board(b="wokwi-pushbutton")), (text, []))

    def test_own_lines_stay_between_those_that_are_made(self) -> None:
        kinds = {"b": "wokwi-pushbutton", "p": "wokwi-pir-motion-sensor"}
        script = "# one\r\n5us set p motion 1\r\n\r\n6us press b\r\n7us set b 0\r\n"
        self.assertEqual(made(script, **kinds), ["5us set p 1", "6us press b", "7us set b 0", "5000005us set p 0"])

    def test_what_is_wrong_has_its_line(self) -> None:
        u = {"u": "wokwi-hc-sr04", "b": "wokwi-pushbutton", "r": "wokwi-ir-remote"}
        ours = "0us set u distance 5\n"
        for line, text in (
            ("1us set u distanse 5", "u has no control distanse; it has distance"),
            ("1us set u distance 1", "u takes a distance from 2 to 400 cm, and not 1"),
            ("1us set u distance far", "u: distance far is no number"),
            ("1us set v distance 5", "there is no part v"),
            ("1us set uno distance 5", "uno has no control distance"),
            ("1us set b pressed 2", "b takes 0 to 1, and not 2"),
            ("1us press u bounce", "u is no push button, which alone bounces"),
            ("1us set r key 1", "r: the board has no part that receives it"),
            ("1us set u 5", "u is no part that it can set"),
            ("1us press v", "there is no part v"),
            ("1us set b 2", "b takes 0 to 1, and not 2"),
            (
                "1us press b twice",
                "it has other words than TIME press ID, TIME release ID, TIME set ID V or TIME set ID CONTROL VALUE",
            ),
            (
                "1ms press b",
                "it is no line of a script: TIME press ID, TIME release ID, TIME set ID V or TIME set ID CONTROL VALUE",
            ),
            ("160000001cy press b", "its time is above 10,000,000us"),
        ):
            self.assertEqual(fault(ours + line + "\n", **u), f"script line 2: {text}")
        self.assertEqual(
            fault("9us press b\n8us press b bounce\n", **u), "script line 2: its time is below that of an earlier line"
        )
        self.assertIn("it has power, menu", fault("0us set r key up\n", **u, one="wokwi-ir-receiver"))

    def test_too_many_lines_and_lines_beyond_the_end(self) -> None:
        many = "".join(f"{n}us set one key 1\n" for n in range(61))
        self.assertIn("lines with what its controls become, and 4096 is the most", fault(many, one="wokwi-ir-receiver"))
        self.assertEqual(made("9999999us set p motion 1\n", p="wokwi-pir-motion-sensor"), ["9999999us set p 1"])

    def test_what_a_page_shows(self) -> None:
        parts = board(d=("wokwi-dht22", {"temperature": "-5.50"}), r="wokwi-ir-receiver")
        _, seen = moves.expanded("3us set d temperature 21.234\n4us set r key 7\n", parts)
        self.assertEqual(
            moves.controls_of(parts, seen),
            {
                "d": [["temperature", "°C", [[0, "-5.5"], [48, "21.2"]]], ["humidity", "%", [[0, "40"]]]],
                "r": [["key", "", [[0, ""], [64, "7"]]]],
            },
        )
        self.assertEqual(moves.at_end(seen), ["d temperature 21.2 °C", "r key 7"])


if __name__ == "__main__":
    unittest.main()
