"""Wiring that cannot be meant: what a project's plan, the levels of its wave, and its sketch's text say together.

The simulator has no voltages and no currents (docs/PARTS.md), so a board that is wired otherwise than it can show still runs.
Each fault is one sentence. They are warnings: a plan does not tell what a hand or a sketch would have done next."""
import json
import os
import re
import threading
from typing import BinaryIO, Iterator, Optional

import sketch as sketches
from diagram import Joined

CYCLES, UNITS = 16, 625  # in a microsecond; of a wave's time in a cycle
REASONS = {
    "short": "an output high against an output low",
    "contradiction": "a net with high and low through resistors or pull-ups, which an input reads as 0",
    "divider": "resistors to high and to low at an analog pin",
    "voltage": "the 3.3V pin at an analog pin",
    "series": "LEDs in series",
    "supply": "a potentiometer without its supply",
    "open": "an analog pin that is read and not wired",
    "dim": "an LED at a pull-up alone",
}
LEAST = 16  # cycles for which a level must be x: two that drive by turns may overlap for a few
MOST = 32 << 20  # bytes of a wave that are read
HIGH, LOW = {"5V", "3.3V", "VIN", "IOREF", "AREF"}, {"GND.1", "GND.2", "GND.3", "GND"}
OUTPUTS = re.compile(r"OUT|Q[0-7]|Q7S")
ANALOG = [f"A{n}" for n in range(6)]
KEYS = [(f"R{row}", f"C{column}") for row in range(1, 5) for column in range(1, 5)]
CONTACTS = {
    "wokwi-pushbutton": [("1.l", "2.l")],
    "wokwi-slide-switch": [("1", "2"), ("2", "3")],
    "wokwi-dip-switch-8": [(f"{n}a", f"{n}b") for n in range(1, 9)],
    "wokwi-membrane-keypad": KEYS,
}
INNER = {
    "wokwi-pushbutton": [("1.l", "1.r"), ("2.l", "2.r")],
    "wokwi-arduino-uno": [("A4", "A4.2"), ("A5", "A5.2")],
    "wokwi-7segment": [("COM", "COM.1"), ("COM", "COM.2")],
}


class Plan:
    """The nets of a diagram that the program takes: of wires alone, and of wires and contacts that may close."""

    def __init__(self, diagram: dict):
        self.kinds = {part["id"]: part["type"] for part in diagram["parts"]}
        self.attrs = {part["id"]: part.get("attrs", {}) for part in diagram["parts"]}
        self.uno = next((name for name, kind in self.kinds.items() if kind == "wokwi-arduino-uno"), "uno")
        self.wires, self.closed = Joined(), Joined()
        self.ends: dict = {}  # of wires, in their order
        for wire in diagram["connections"]:
            if not any(end.startswith("$") for end in wire[:2]):
                self.join(*wire[:2])
                self.ends.update(dict.fromkeys(wire[:2]))
        for name, kind in self.kinds.items():
            for one, other in INNER.get(kind, ()):
                self.join(f"{name}:{one}", f"{name}:{other}")
            for one, other in CONTACTS.get(kind, ()):
                self.closed.join(f"{name}:{one}", f"{name}:{other}")

    def join(self, one: str, other: str) -> None:
        self.wires.join(one, other)
        self.closed.join(one, other)

    def kind(self, end: str) -> str:
        return self.kinds.get(end.split(":", 1)[0], "")

    def net(self, end: str, nets: Optional[Joined] = None) -> list:
        """The pins on a pin's net that a wire is on, that pin first."""
        nets = nets or self.wires
        root = nets.find(end)
        return [end] + [it for it in self.ends if it != end and nets.find(it) == root]

    def supply(self, end: str) -> str:
        """`high` or `low` of a supply's pin, else nothing."""
        kind, pin = self.kind(end), end.split(":", 1)[1]
        if kind in ("wokwi-vcc", "wokwi-gnd"):
            return "high" if kind == "wokwi-vcc" else "low"
        if kind == "wokwi-arduino-uno":
            return "high" if pin in HIGH else "low" if pin in LOW else ""
        return ""

    def is_output(self, end: str) -> bool:
        """Whether a pin may drive its net strongly, as an output."""
        kind, pin = self.kind(end), end.split(":", 1)[1]
        if kind == "wokwi-arduino-uno":
            return not self.supply(end) and pin != "RESET"
        if kind.startswith(("wokwi-gate-", "wokwi-74hc595")):
            return bool(OUTPUTS.fullmatch(pin))
        return kind == "board-source" or kind.startswith("chip-")

    def supplies(self, end: str, nets: Optional[Joined] = None) -> set:
        return {self.supply(it) for it in self.net(end, nets)} - {""}

    def through_resistors(self, end: str) -> dict:
        """By the first pin of each other net that resistors lead to from a pin: the resistors on the way."""
        found, waiting = {}, [(end, ())]
        seen = {self.wires.find(end)}
        while waiting:
            at, way = waiting.pop()
            for it in self.net(at):
                name, pin = it.split(":", 1)
                if self.kinds.get(name) != "wokwi-resistor":
                    continue
                other = f"{name}:{'2' if pin == '1' else '1'}"
                if self.wires.find(other) not in seen:
                    seen.add(self.wires.find(other))
                    found[other] = (*way, name)
                    if not self.supplies(other):  # a supply passes nothing on
                        waiting.append((other, found[other]))
        return found

    def is_wired(self, end: str) -> bool:
        return len(self.net(end)) > 1


# ---- the wave


def contradictions(wave: BinaryIO, names: list) -> dict:
    """By name (first cycle, cycles in all) of the times in which a variable is x, of the wave's first 32 MiB; what is over is read
    and forgotten, so that a program that writes into a pipe ends."""
    codes, found, since, at = {}, {}, {}, 0
    for line in wave:
        if line.startswith(b"$var "):
            words = line.split()
            if words[4].decode("utf-8", "replace") in names:
                codes[words[3]] = words[4].decode("utf-8", "replace")
        elif line.startswith(b"$enddefinitions"):
            break

    def end(code: bytes, cycle: int) -> None:
        first, total = found.get(codes[code], (since[code], 0))
        found[codes[code]] = first, total + cycle - since.pop(code)

    rest, read = b"", 0
    while piece := wave.read(1 << 20):
        read += len(piece)
        if read > MOST:
            continue
        piece, cut, rest = (rest + piece).rpartition(b"\n") if b"\n" in piece else (b"", b"", rest + piece)
        if not cut:
            continue
        if not since and b"\nx" not in b"\n" + piece:
            last = piece.rfind(b"\n#")
            if last >= 0 or piece.startswith(b"#"):
                at = int(piece[last + 2 if last >= 0 else 1 :].split(b"\n", 1)[0]) // UNITS
            continue
        for line in piece.split(b"\n"):
            if line[:1] == b"#":
                at = int(line[1:]) // UNITS
            elif line[1:] in codes and line[:1] == b"x":
                since.setdefault(line[1:], at)
            elif line[1:] in since:
                end(line[1:], at)
    for code in list(since):
        end(code, at)
    return found


def piped(project: str, run) -> tuple:
    """(what `run` answers, the contradictions of the wave that it writes): it is handed the name of a pipe and its descriptor, so
    that no wave takes room."""
    names, found = watched(project), {}
    reads, writes = os.pipe()

    def read():
        with os.fdopen(reads, "rb") as wave:
            found.update(contradictions(wave, names))

    reader = threading.Thread(target=read)
    reader.start()
    try:
        answer = run(f"/dev/fd/{writes}", writes)
    finally:
        os.close(writes)
        reader.join()
    return answer, found


# ---- the sketch


def text_of_sketch(folder: Optional[str]) -> str:
    """The text of a folder's sketch without comments and strings; nothing where there is none."""
    if not folder or not os.path.isdir(folder):
        return ""
    place, main = sketches.sketch_of(folder)
    text = ""
    for name in sorted(os.listdir(place)) if main else ():
        if name.endswith((".ino", ".pde", ".cpp", ".h")):
            with open(os.path.join(place, name), encoding="utf-8", errors="replace") as file:
                text += sketches.without_comments(file.read()) + "\n"
    return text


def pin_of(text: str, word: str, is_analog: bool) -> Optional[str]:
    """The Uno's pin that a word of a sketch names: `A0`, `7`, or a name that is one of these throughout."""
    for _ in range(4):
        if re.fullmatch(r"A[0-5]", word):
            return word
        if re.fullmatch(r"[0-9]{1,2}", word):
            number = int(word)
            if is_analog and number < 6 or 14 <= number < 20:
                return f"A{number % 14}"
            return str(number) if number < 14 and not is_analog else None
        given = set(
            re.findall(rf"(?m)^[ \t]*#[ \t]*define[ \t]+{word}[ \t]+\(?(\w+)\)?|\b{word}\s*=\s*(\w+)\s*[;,]", text)
        )
        values = {one or other for one, other in given}
        if len(values) != 1:
            return None
        word = values.pop()
    return None


def pins_read(text: str) -> set:
    """The pins that analogRead is called with."""
    return {pin_of(text, word, True) for word in re.findall(r"\banalogRead\s*\(\s*(\w+)\s*\)", text)} - {None}


def pins_in_mode(text: str, mode: str) -> set:
    return {pin_of(text, word, False) for word in re.findall(rf"\bpinMode\s*\(\s*(\w+)\s*,\s*{mode}\s*\)", text)} - {
        None
    }


# ---- the faults


def ms(cycle: int) -> str:
    return f"{cycle / CYCLES / 1000:.4f}".rstrip("0").rstrip(".") + " ms"


def listed(ends: list) -> str:
    return ", ".join(it.replace(":", ".", 1) for it in ends)


def of_levels(plan: Plan, found: dict) -> Iterator[tuple]:
    """Of the Uno's pins that were x: two that drive, or resistors to both sides."""
    told = set()
    for name, (first, total) in found.items():
        end = f"{plan.uno}:{name.split('.', 1)[1]}"
        if total < LEAST or plan.closed.find(end) in told:
            continue
        told.add(plan.closed.find(end))
        strong = [it for it in plan.net(end, plan.closed) if plan.supply(it) or plan.is_output(it)]
        ways = plan.through_resistors(end)
        sides = {
            side: next((way for other, way in ways.items() if side in plan.supplies(other)), None)
            for side in ("high", "low")
        }
        when = f"from {ms(first)} on, for {ms(total)} in all"
        if sides["high"] and sides["low"] and not plan.supplies(end):
            if name.split(".", 1)[1] in ANALOG:
                yield "divider", plan.uno, (
                    f"{name}: its net has high through {', '.join(sides['high'])} and low through {', '.join(sides['low'])} (x {when}): "
                    "no resistance counts here, so analogRead gives 0; a potentiometer at the voltage's place gives the number (docs/PARTS.md)"
                )
            else:
                yield "contradiction", plan.uno, f"{name}: its net has high through {', '.join(sides['high'])} and low through {', '.join(sides['low'])} (x {when}): an input reads 0 there (docs/PARTS.md)"
        elif len(strong) > 1:
            yield "short", plan.uno, f"{name}: an output is high against one that is low ({listed(strong)}), {when}: a real board has a short circuit there"
        else:
            yield "contradiction", plan.uno, (
                f"{name}: its net has high and low through resistors or a pull-up (x {when}): "
                "an input reads 0 there; no resistance counts, so no side is the stronger one (docs/PARTS.md)"
            )


def of_leds(plan: Plan) -> Iterator[tuple]:
    """LEDs with nothing but LEDs and resistors between them: the net there is undriven, so both stay dark."""
    told = set()
    for name, kind in plan.kinds.items():
        end = f"{name}:C"
        if kind != "wokwi-led" or end not in plan.ends:
            continue
        pins = [it for at in [end, *plan.through_resistors(end)] for it in plan.net(at)]
        others = [it for it in pins if plan.kind(it) not in ("wokwi-resistor", "wokwi-junction")]
        after = [it.split(":", 1)[0] for it in others if it.endswith(":A") and it != f"{name}:A"]
        if all(plan.kind(it) == "wokwi-led" for it in others) and after and name not in told:
            told.add(name)
            yield "series", name, f"{name} and {', '.join(dict.fromkeys(after))} are in series, and no current is calculated here: they stay dark (docs/PARTS.md, \"Lights\")"


def of_potentiometers(plan: Plan) -> Iterator[tuple]:
    """Potentiometers whose ends are not at a supply: here the wiper's position counts all the same."""
    for name, kind in plan.kinds.items():
        if kind != "wokwi-potentiometer" or not plan.is_wired(f"{name}:SIG"):
            continue
        ends = {pin: f"{name}:{pin}" for pin in ("VCC", "GND")}
        open_ends = [pin for pin, end in ends.items() if not plan.is_wired(end)]
        here = "here analogRead gives its position all the same"
        if open_ends:
            yield "supply", name, f"{name}: its {' and '.join(open_ends)} {'is' if len(open_ends) == 1 else 'are'} not wired: a real board reads no such value; {here}"
        elif plan.supplies(ends["VCC"]) == {"low"} and plan.supplies(ends["GND"]) == {"high"}:
            yield "supply", name, f"{name}: its VCC and GND are swapped: a real board reads 1023 less its position; {here}"
        elif len(both := {tuple(plan.supplies(end)) for end in ends.values()}) == 1 and both != {()}:
            yield "supply", name, f"{name}: its VCC and GND are both {next(iter(both))[0]}: a real board reads one value; {here}"


def of_analog_pins(plan: Plan, text: str) -> Iterator[tuple]:
    """Analog pins with a voltage that is none here, or that are read and open: on a board without a wire where numbers are drawn
    from one alone."""
    read = pins_read(text)
    is_drawn = bool(re.search(r"\brandomSeed\s*\(\s*analogRead\b", text))
    for pin in ANALOG:
        end = f"{plan.uno}:{pin}"
        if plan.is_wired(end):
            at = [it for it in [end, *plan.through_resistors(end)] if f"{plan.uno}:3.3V" in plan.net(it)]
            if (
                at
                and len(plan.supplies(end) | {side for it in plan.through_resistors(end) for side in plan.supplies(it)})
                == 1
            ):
                yield "voltage", plan.uno, f"{plan.uno}.{pin}: it is wired to 3.3V, which is high here: analogRead gives 1023, and a real board 675"
        elif pin in read and (plan.ends or is_drawn):
            seed = ", so randomSeed gives the same numbers in each run" if is_drawn else ""
            yield "open", plan.uno, f"{plan.uno}.{pin}: the sketch reads it by analogRead, and nothing is wired to it: that always gives 0 here{seed}"


def of_pull_ups(plan: Plan, text: str) -> Iterator[tuple]:
    """LEDs that the pull-up of a pin alone lights."""
    for pin in sorted(pins_in_mode(text, "INPUT_PULLUP") - pins_in_mode(text, "OUTPUT")):
        end = f"{plan.uno}:{pin}"
        pins = [it for at in [end, *plan.through_resistors(end)] for it in plan.net(at, plan.closed)]
        if any(it != end and (plan.supply(it) or plan.is_output(it)) for it in pins):
            continue
        for led in dict.fromkeys(
            it.split(":", 1)[0] for it in pins if plan.kind(it) == "wokwi-led" and it.endswith(":A")
        ):
            yield "dim", led, f"{led}: the pull-up of pin {pin} alone lights it (INPUT_PULLUP): on a real board it hardly glows; an OUTPUT lights it"


def plan_of(project: str) -> Plan:
    with open(os.path.join(project, "diagram.json"), encoding="utf-8-sig") as file:
        return Plan(json.load(file))


def watched(project: str) -> list:
    """The variables of a wave whose contradictions `faults` takes: the Uno's pins."""
    uno = plan_of(project).uno
    return [f"{uno}.{pin}" for pin in [*map(str, range(14)), *ANALOG]]


def faults(project: str, found: Optional[dict] = None, sketch: Optional[str] = None) -> Iterator[tuple]:
    """(reason, part, sentence) of a project's folder that the program accepted. `found` is what `contradictions` found in its wave;
    `sketch` is the folder that it was made of."""
    plan = plan_of(project)
    text = text_of_sketch(sketch or project)
    yield from of_levels(plan, found or {})
    yield from of_leds(plan)
    yield from of_potentiometers(plan)
    yield from of_analog_pins(plan, text)
    yield from of_pull_ups(plan, text)
