"""What a hand does with the parts of a board, in words of the editor, as lines of a script that the program takes (docs/SCRIPTS.md).

A project that lower.py made says under `controls` of its diagram.json which parts of the editor have controls, and what these parts
became; `types.json` says what a control does there. tools/web/page/moves.js does the same in the page, text for text."""

import json
import os
import re
from typing import NamedTuple

import diagram as diagrams
import formulas

MICROSECOND = 16  # cycles
MS = 1000 * MICROSECOND
LAST = 160_000_000  # the largest time of a line, in cycles
MOST_LINES = 4096
LINE = re.compile(r"([0-9]{1,9})(us|cy) +(press|release|set) +(\S+)((?: +\S+)*)")
# By type: the largest value that a line of the program sets.
RANGES = {
    "wokwi-pushbutton": 1,
    "wokwi-slide-switch": 1,
    "wokwi-dip-switch-8": 255,
    "wokwi-potentiometer": 1023,
    "wokwi-membrane-keypad": 65535,
    "board-source": 2,
}
# When a contact that bounces opens and closes again, in microseconds after it first closed, or opened.
BOUNCES = {"press": (0, 140, 200, 470, 560, 1150, 1210), "release": (0, 90, 170, 520, 580)}
TURN = 2 * MS  # between two edges of a rotary encoder, four of which are a step
UNIT = 9000  # cycles of the 562.5 us of which an infrared frame is made
FRAME = 108 * MS  # from the beginning of one frame to the next


class Fault(Exception):
    """What cannot be done, in words."""


class Seen(NamedTuple):
    """A control that was moved: when, of which part, to what, in its unit."""

    cycle: int
    part: str
    control: str
    value: str
    unit: str


def nearest(value: float, rule: dict) -> int:
    """The place of a control that is nearest to a value, from 0."""
    return round((value - rule["min"]) / rule["step"])


def number_text(value: float) -> str:
    """A decimal number with at most six digits after its point, and no zeros at its end."""
    text = f"{value:.6f}".rstrip("0").rstrip(".")
    return "0" if text == "-0" else text


def place_text(place: int, rule: dict) -> str:
    """The value at a place of a control."""
    return number_text(rule["min"] + place * rule["step"])


def bit_of(kind: str, control: str) -> int | None:
    """The bit of a part's value that a control is, if it is one: a switch of eight by its number, a key by row and column."""
    if kind == "wokwi-dip-switch-8" and re.fullmatch("[1-8]", control):
        return int(control) - 1
    key = re.fullmatch("r([1-4])c([1-4])", control)
    return 4 * (int(key[1]) - 1) + int(key[2]) - 1 if kind == "wokwi-membrane-keypad" and key else None


class Moves:
    """The lines of one script, made of what is done at each cycle; no cycle is below an earlier one."""

    def __init__(self, diagram: dict, types: dict | None = None) -> None:
        self.types = types or diagrams.table()
        self.kinds = {part["id"]: part["type"] for part in diagram["parts"]}
        self.attrs = {part["id"]: diagrams.attrs_of(part) for part in diagram["parts"]}
        found = diagram.get("controls")
        self.controls: dict = found if isinstance(found, dict) else {}
        self.made: list[tuple[int, str]] = []
        self.seen: list[Seen] = []
        self.values: dict[str, int] = {}  # of parts whose bits are moved one by one
        self.free: dict[str, int] = {}  # the cycle from which on a part can be moved again
        self.motions: dict[str, list[list[int]]] = {}  # of a motion sensor: from when to when it sees one

    def put(self, cycle: int, text: str) -> None:
        """One line, as it is."""
        self.made.append((cycle, text))

    def rule_of(self, part: str) -> dict:
        """The controls of a part of the editor."""
        it = self.controls.get(part, {})
        if "rules" in it:  # a chip of the project
            return it["rules"]
        kind = it.get("type", "")
        rule = self.types["lowered"].get(kind) or self.types["left out"].get(kind) or {}
        return rule.get("controls", {})

    def move(self, cycle: int, part: str, control: str, value: str) -> None:
        """Moves a control of a part to a value in its unit."""
        rules = self.rule_of(part)
        if control not in rules:
            self.move_simulated(cycle, part, control, value, rules)
            return
        rule = rules[control]
        if "words" in rule:
            if value not in rule["words"]:
                raise Fault(f"{part} has no {control} {value}; it has {', '.join(rule['words'])}")
            self.act(cycle, part, rule, rule["words"][value])
            self.seen.append(Seen(cycle, part, control, value, ""))
            return
        given = self.number(part, control, value)
        if not rule["min"] <= given <= rule["max"]:
            unit = f" {rule['unit']}" if rule["unit"] else ""
            raise Fault(
                f"{part} takes a {control} from {number_text(rule['min'])} to {number_text(rule['max'])}{unit}, and not {value}"
            )
        place = nearest(given, rule)
        self.seen.append(Seen(cycle, part, control, place_text(place, rule), rule["unit"]))
        if "places before" in rule:
            self.pulse(cycle, self.controls[part]["ids"]["-control"], rule["places before"] + place + 1)
        elif "acts" in rule:
            self.act(cycle, part, rule, place + round(rule["min"] / rule["step"]))
        elif "sets" in rule:
            self.put(cycle, f"{'press' if place else 'release'} {self.controls[part]['ids'][rule['sets']]}")
        else:
            self.set_pieces(cycle, part, control, place_text(place, rule))

    def number(self, part: str, control: str, value: str) -> float:
        """The number that a text is."""
        try:
            return formulas.number(value)
        except ValueError as fault:
            raise Fault(f"{part}: {control} {value} {fault}") from None

    def set_pieces(self, cycle: int, part: str, control: str, value: str) -> None:
        """Sets each piece of a part whose value follows from the control."""
        it = self.controls[part]
        attrs = {**it["attrs"], control: value}
        for piece in self.types["lowered"][it["type"]]["as"]:
            how = piece.get("attrs", {}).get("value")
            if isinstance(how, dict) and how["from"] == control:
                try:
                    self.put(cycle, f"set {it['ids'][piece['id']]} {formulas.value_of(how, attrs)}")
                except (ValueError, ArithmeticError) as fault:
                    raise Fault(f"{part}: {control} {value} {fault}") from None

    def move_simulated(self, cycle: int, part: str, control: str, value: str, rules: dict) -> None:
        """Moves a part that the simulator has, by the name of its control in the editor."""
        kind, its = self.kinds.get(part), f"; it has {', '.join(rules)}" if rules else ""
        if kind not in RANGES:
            raise Fault(
                f"{part} has no control {control}{its}" if part in self.kinds or rules else f"there is no part {part}"
            )
        given = self.number(part, control, value)
        bit = bit_of(kind, control)
        if kind == "wokwi-potentiometer" and control == "position":
            given *= 1023
        elif bit is not None:
            given = self.values.get(part, 0) & ~(1 << bit) | ((1 << bit) if given else 0)
        elif control not in ("value", "pressed", "position"):
            raise Fault(f"{part} has no control {control}{its}")
        whole = round(given)
        if not 0 <= whole <= RANGES[kind]:
            more = " (position 0 to 1)" if kind == "wokwi-potentiometer" else ""
            raise Fault(f"{part} takes 0 to {RANGES[kind]}{more}, and not {value}")
        self.values[part] = whole
        self.put(cycle, f"set {part} {whole}")

    def pulse(self, cycle: int, source: str, length: int) -> None:
        """A pulse of so many cycles, after the one before it."""
        start = max(cycle, self.free.get(source, 0))
        self.put(start, f"set {source} 1")
        self.put(start + length, f"set {source} 0")
        self.free[source] = start + length + 1

    def act(self, cycle: int, part: str, rule: dict, value: int) -> None:
        """What a control does that makes more than one line."""
        if rule["acts"] == "motion":
            if value:
                self.see_motion(cycle, part)
            return
        if rule["acts"] == "turn":
            self.turn(cycle, part, value)
            return
        of = rule.get("of")
        targets = [part] if not of else [name for name, it in self.controls.items() if it["type"] == of]
        if not targets:
            raise Fault(f"{part}: the board has no part that receives it")
        for target in targets:
            self.send_frame(cycle, self.controls[target]["ids"][""], value)

    def turn(self, cycle: int, part: str, steps: int) -> None:
        """The contacts of a rotary encoder: to the right CLK closes first, to the left DT."""
        clk, dt = (self.controls[part]["ids"][ending] for ending in ("-clk", "-dt"))
        start = max(cycle, self.free.get(part, 0))
        first, second = (clk, dt) if steps > 0 else (dt, clk)
        for step in range(abs(steps)):
            for place, (contact, level) in enumerate(((first, 0), (second, 0), (first, 1), (second, 1))):
                self.put(start + (4 * step + place) * TURN, f"set {contact} {level}")
        self.free[part] = start + 4 * abs(steps) * TURN

    def send_frame(self, cycle: int, receiver: str, command: int) -> None:
        """A frame in NEC's format for address 0 at a receiver's output, which is low while there is light."""
        start = max(cycle, self.free.get(receiver, 0))
        code = 0xFF00 | command << 16 | (command ^ 255) << 24
        spaces = [8, *(3 if code >> bit & 1 else 1 for bit in range(32))]
        at = start
        for place, space in enumerate(spaces):
            mark = 1 if place else 16
            self.put(at, f"set {receiver} 0")
            self.put(at + mark * UNIT, f"set {receiver} 1")
            at += (mark + space) * UNIT
        self.put(at, f"set {receiver} 0")
        self.put(at + UNIT, f"set {receiver} 1")
        self.free[receiver] = start + FRAME

    def see_motion(self, cycle: int, part: str) -> None:
        """A motion: the output is high for `delayTime` seconds, then blind for `inhibitTime`; with `retrigger` a motion lengthens it."""
        attrs = self.controls[part]["attrs"]
        delay, inhibit = (
            round(16_000_000 * self.number(part, name, attrs.get(name) or usual))
            for name, usual in (("delayTime", "5"), ("inhibitTime", "1.2"))
        )
        motions = self.motions.setdefault(part, [])
        if motions and cycle < motions[-1][1]:
            if (attrs.get("retrigger") or "1") != "0":
                motions[-1][1] = cycle + delay
        elif not motions or cycle >= motions[-1][1] + inhibit:
            motions.append([cycle, cycle + delay])

    def bounce(self, cycle: int, action: str, part: str) -> None:
        """Presses or releases a button whose contact bounces."""
        if self.kinds.get(part) != "wokwi-pushbutton":
            raise Fault(
                f"{part} is no push button, which alone bounces" if part in self.kinds else f"there is no part {part}"
            )
        other = "release" if action == "press" else "press"
        for place, us in enumerate(BOUNCES[action]):
            self.put(cycle + us * MICROSECOND, f"{other if place % 2 else action} {part}")

    def lines(self) -> list[tuple[int, str]]:
        """All lines in the order of their cycles; those beyond the largest time are none."""
        made = list(self.made)
        for part, motions in self.motions.items():
            out = self.controls[part]["ids"][""]
            made += [line for start, end in motions for line in ((start, f"set {out} 1"), (end, f"set {out} 0"))]
        kept = sorted((line for line in made if line[0] <= LAST), key=lambda line: line[0])
        if len(kept) > MOST_LINES:
            raise Fault(f"the script has {len(kept)} lines with what its controls become, and {MOST_LINES} is the most")
        return kept


def time_text(cycle: int) -> str:
    """A cycle as a script writes it."""
    return f"{cycle}cy" if cycle % MICROSECOND else f"{cycle // MICROSECOND}us"


def is_ours(line: str) -> bool:
    """Whether a line of a script is one that the program does not have."""
    found = LINE.fullmatch(line)
    words = found[5].split() if found else []
    return bool(found) and (len(words) == 2 if found[3] == "set" else words == ["bounce"])


def expanded(text: str, diagram: dict, types: dict | None = None) -> tuple[str, list[Seen]]:
    """The script that the program takes, and the controls that it moves; a text without lines of ours is as it was. Raises Fault."""
    lines = [line[:-1] if line.endswith("\r") else line for line in text.split("\n")]
    if not any(map(is_ours, lines)):
        return text, []
    moves, last = Moves(diagram, types), 0
    for place, line in enumerate(lines, 1):
        if line == "" or line.startswith("#"):
            continue
        try:
            last = take(moves, line, last)
        except Fault as fault:
            raise Fault(f"script line {place}: {fault}") from None
    return "".join(f"{time_text(cycle)} {line}\n" for cycle, line in moves.lines()), moves.seen


def take(moves: Moves, line: str, last: int) -> int:
    """Takes a line, which may not be before the cycle `last`, and returns its cycle."""
    found = LINE.fullmatch(line)
    if not found:
        raise Fault(
            "it is no line of a script: TIME press ID, TIME release ID, TIME set ID V or TIME set ID CONTROL VALUE"
        )
    cycle, words = int(found[1]) * (MICROSECOND if found[2] == "us" else 1), found[5].split()
    action, part = found[3], found[4]
    if not last <= cycle <= LAST:
        raise Fault("its time is below that of an earlier line" if cycle < last else "its time is above 10,000,000us")
    if is_ours(line):
        if action == "set":
            moves.move(cycle, part, *words)
        else:
            moves.bounce(cycle, action, part)
        return cycle
    value = words[0] if words else {"press": "1", "release": "0", "set": ""}[action]
    if len(words) != (action == "set") or not re.fullmatch("[0-9]{1,5}", value):
        raise Fault(
            "it has other words than TIME press ID, TIME release ID, TIME set ID V or TIME set ID CONTROL VALUE"
        )
    most = RANGES.get(moves.kinds.get(part, ""))
    if most is None or action != "set" and moves.kinds[part] != "wokwi-pushbutton":
        raise Fault(f"{part} is no part that it can {action}" if part in moves.kinds else f"there is no part {part}")
    if int(value) > most:
        raise Fault(f"{part} takes 0 to {most}, and not {value}")
    moves.put(cycle, line.split(" ", 1)[1].lstrip(" "))
    return cycle


def chip_rules(pin_file: dict) -> tuple[dict[str, dict], list[str]]:
    """(the controls of a chip by its JSON file, why others cannot be moved): whole numbers, as attributes are."""
    rules: dict[str, dict] = {}
    faults, before = [], 0
    found = pin_file.get("controls", [])
    for it in found if isinstance(found, list) else []:
        name = it.get("id") if isinstance(it, dict) else None
        ends = [it.get(key, usual) for key, usual in (("min", None), ("max", None), ("step", 1))] if name else []
        if not isinstance(name, str) or not re.fullmatch("[A-Za-z_][A-Za-z0-9_]{0,31}", name) or name in rules:
            faults.append(f"control {name}: a control has an `id` of letters, digits and _ of its own")
        elif (
            not all(
                isinstance(end, (int, float)) and not isinstance(end, bool) and end == int(end) and abs(end) < 2**31
                for end in ends
            )
            or ends[2] < 1
            or ends[0] > ends[1]
        ):
            faults.append(f"control {name}: `min`, `max` and `step` are whole numbers here")
        elif len(rules) == 8 or (ends[1] - ends[0]) // ends[2] >= 20_000:
            faults.append(f"control {name}: a chip has 8 controls of 20,000 places at most")
        else:
            low, high, step = map(int, ends)
            rules[name] = {"min": low, "max": high, "step": step, "default": "", "unit": "", "places before": before}
            before += (high - low) // step + 1
    return rules, faults


def controls_of(diagram: dict, seen: list[Seen], types: dict | None = None) -> dict[str, list]:
    """For a page: {part: [[control, unit, [[cycle, value], ..]], ..]}, each control first with the value that the diagram gives it."""
    moves, found = Moves(diagram, types), {}
    for part, it in moves.controls.items():
        found[part] = [
            [name, rule.get("unit", ""), [[0, started(it["attrs"].get(name), rule)]]]
            for name, rule in moves.rule_of(part).items()
        ]
    for cycle, part, control, value, _ in seen:
        for name, _, values in found.get(part, []):
            if name == control:
                values.append([cycle, value])
    return found


def started(given: str | None, rule: dict) -> str:
    """The text of a control's value before it is moved."""
    try:
        return number_text(formulas.number(given)) if given else rule.get("default", "")
    except ValueError:
        return str(given)


def at_end(seen: list[Seen]) -> list[str]:
    """What was moved and to what at last, a sentence each."""
    last = {(it.part, it.control): it for it in seen}
    return [f"{it.part} {it.control} {it.value} {it.unit}".rstrip() for it in last.values()]


def put_expanded(script: str, project: str, to: str) -> tuple[str, list[Seen]]:
    """The path of the script that the program takes, and the controls that it moves: the one that is given, or one that is written
    at `to`. Of files that cannot be read the program says what is wrong. Raises Fault."""
    try:
        with open(script, encoding="utf-8", errors="surrogateescape", newline="") as file:
            text = file.read()
        if not any(map(is_ours, text.replace("\r", "").split("\n"))):
            return script, []
        with open(os.path.join(project, "diagram.json"), encoding="utf-8-sig") as file:
            diagram = json.load(file)
    except (OSError, ValueError):
        return script, []
    made, seen = expanded(text, diagram)
    with open(to, "w", encoding="utf-8", errors="surrogateescape") as file:
        file.write(made)
    return to, seen
