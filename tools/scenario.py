#!/usr/bin/env python3
"""Runs a scenario as Wokwi's automation has them:  tools/scenario.py [OPTIONS] FOLDER [SCENARIO.yaml]

Without SCENARIO.yaml and --expect-text it is the folder's own: scenario.yaml, NAME.scenario.yaml or NAME.test.yaml.

  --timeout TIME       the simulated time that all may take; else the scenario's `timeout`, else 10s, which is the most
  --expect-text TEXT   waits for this text after the steps
  --fail-text TEXT     fails where this text is sent
  --baud N             the speed of write-serial
  --budget N           how many units of fuel each call of a chip may spend (1,000,000)
  --allow NAME         this does not fail it: halt, trap, left-out, attribute, pin, console, wiring, or a register's name;
                       once more for each, beside the scenario's own `allow: [..]`
  --strict             what is told alone fails it too, and so does a scenario that expects nothing
  --serial FILE, --vcd FILE, --report FILE, --page FILE
                       what was sent, the wave, the report and the page of the run: up to the end, and after a failure 1 ms more
  --keep FOLDER        puts the project there, with what was set as script.txt, and the command that runs it again in again.txt
  --program FILE       the program; else MUDFLATJAR in the environment names it, else it is the one of this repository
  --quiet              says what failed alone

Status: 0 all steps passed, 1 one failed, 42 the time was over, 2 the words or the scenario are not understood, else the
program's own. docs/TESTING.md has the steps, and what fails a scenario whose steps all passed."""
import argparse
import math
import os
import re
import shlex
import shutil
import subprocess
import sys
import tempfile
from typing import NamedTuple

HERE = os.path.dirname(os.path.abspath(__file__))
sys.path[:0] = [HERE, os.path.join(HERE, "wokwi"), os.path.join(HERE, "script")]
import diagram as diagrams
import formulas
import lower
import moves
import option
import shown as showing
import trapped
import truth
import typist
from program import program_path
from wave import CYCLES, Wave, frames

PASSED, FAILED, MISUSED, OVER = 0, 1, 2, 42
MOST = 10_000_000  # microseconds of a run
BEYOND = 16_000  # cycles that are kept of a run after the moment in which a step failed
TAIL = 2000  # bytes that are shown of what was sent
UNITS = {"ns": 0.016, "us": 16, "ms": 16_000, "s": 16_000_000}
TYPIST = "mudflatjar-typist"
PLACE = re.compile(r"^(uno \S+ pc )0x[0-9A-F]+")  # of the next instruction, which another compiler puts elsewhere
FILE = re.compile(r"(?:.*\.)?(?:scenario|test)\.ya?ml")


class Stop(Exception):
    """The end of a scenario before its last step: a status, the cycle up to which the failed step looked, and the step's line in
    the file. What could not be tried is an error, and no failure."""

    def __init__(self, status, text, until=0, line=None, is_error=False):
        super().__init__(text)
        self.status, self.until, self.line, self.is_error = status, until, line, is_error


class Step(NamedTuple):
    """A step of a scenario's file."""

    word: str
    value: object
    line: int


class Outcome(NamedTuple):
    """How a scenario ended: the status, and why where that is not 0; what is told all the same; the scenario's own name; the line
    of the step that failed; whether it could not be tried; the last bytes that were sent; the command that runs it again."""

    status: int
    text: str
    told: list
    name: str = ""
    line: int = 0
    is_error: bool = False
    sent: bytes = b""
    again: str = ""


def misused(text):
    return Stop(MISUSED, text, is_error=True)


def cycles(text, what="a time"):
    """The cycles of a time such as 500ms, 1.5s, 20us; a number alone is milliseconds, as in Wokwi."""
    found = re.fullmatch(r"\s*([0-9]+(?:\.[0-9]+)?)\s*(ns|us|ms|s)?\s*", str(text))
    if not found:
        raise misused(f"{text!r} is no time ({what}): write 500ms, 20us or 1.5s")
    return math.ceil(round(float(found[1]) * UNITS[found[2] or "ms"], 6))


def shown(cycle):
    """A cycle as a time, in milliseconds."""
    return f"{cycle / 16_000:.4f}".rstrip("0").rstrip(".") + " ms"


# ---- runs

class Run:
    """One run from the beginning: what was sent, the wave and the report."""

    def __init__(self, board, us, folder):
        self.us = us
        self.wave_file = os.path.join(folder, "wave.vcd")
        self.report_file = os.path.join(folder, "report.txt")
        words = [board.program, "run", board.folder, "--us", str(us), "--vcd", self.wave_file, "--report", self.report_file]
        if board.budget:
            words += ["--budget", str(board.budget)]
        if board.script:
            path = os.path.join(folder, "script.txt")
            with open(path, "w", encoding="utf-8") as file:
                file.writelines(f"{at}cy {line}\n" for at, line in board.lines())
            words += ["--script", path]
        try:
            ran = subprocess.run(words, stdout=subprocess.PIPE, stderr=subprocess.PIPE, stdin=subprocess.DEVNULL, check=False)
        except OSError as fault:
            raise Stop(FAILED, f"{board.program}: {fault.strerror}", is_error=True) from None
        if ran.returncode:
            raise Stop(ran.returncode if ran.returncode > 0 else FAILED, ran.stderr.decode("utf-8", "replace").strip(), is_error=True)
        self.sent = ran.stdout
        self.wave_of = {}

    def end(self):
        return self.us * CYCLES

    def wave(self, *names):
        """The wave of some pins, which the diagram must have."""
        if names not in self.wave_of:
            self.wave_of[names] = Wave(self.wave_file, names)
            for name in self.wave_of[names].missing:
                raise misused(f"the wave has no pin {name}")
        return self.wave_of[names]

    def report(self):
        with open(self.report_file, encoding="utf-8") as file:
            return file.read().splitlines()


class Board:
    """A project in a folder of its own, under the script so far."""

    def __init__(self, program, folder, work, before, with_typist, baud, say, budget=None):
        self.program, self.work, self.say, self.budget = program, work, say, budget
        self.source = folder
        self.folder = os.path.join(work, "project")
        self.set_before = before  # (part, control, value) of chips, which are attributes of the diagram
        self.with_typist, self.baud = with_typist, baud
        self.script, self.typed = [], []
        self.kept = self.ended = (None, None)  # what a run was made of, and the run: the longest one, and the last of `exactly`
        self.made = self.uno = None  # the diagram after lowering; the Uno's id
        faults = lower.lower(folder, self.folder, edit=self.edited, change=self.changed)
        if faults:
            raise Stop(FAILED, "\n".join(faults), is_error=True)
        self.types = {part["id"]: part["type"] for part in self.made["parts"]}

    def edited(self, diagram):
        """The diagram with the attributes that are set before the first cycle."""
        for part in diagram["parts"]:
            for name, control, value in self.set_before:
                if part["id"] == name:
                    part.setdefault("attrs", {})[control] = str(value)

    def changed(self, lowering, made, out):
        """Adds the chip that types, where the scenario does."""
        self.made = made
        self.uno = next((part["id"] for part in made["parts"] if part["type"] == "wokwi-arduino-uno"), "uno")
        if not self.with_typist:
            return []
        for count, most, what in ((len(made["parts"]), diagrams.MOST_PARTS, "parts"), (len(made["connections"]), diagrams.MOST_WIRES, "connections"),
                                  (sum(part["type"].startswith("chip-") for part in made["parts"]), diagrams.MOST_CHIPS, "parts that are chips")):
            if count >= most:
                raise lower.Fault(f"write-serial types by a chip of its own, and the board has {count} {what} already: with it {most - 1} are the most")
        made["parts"].append({"type": f"chip-{TYPIST}", "id": lowering.new_id(TYPIST), "attrs": {"baud": "9600"}})
        made["connections"].append([f"{made['parts'][-1]['id']}:TX", f"{self.uno}:0", "", []])
        shutil.copyfile(os.path.join(lower.CHIPS, "typist.json"), os.path.join(out, f"{TYPIST}.json"))
        shutil.copyfile(typist.MODULE, os.path.join(out, f"{TYPIST}.wasm"))
        return [(TYPIST, TYPIST)]

    def moves(self):
        """What the controls that were set become, in the order of the steps."""
        made = moves.Moves(self.made)
        for at, move in self.script:
            move(made, at)
        return made

    def lines(self):
        """The lines of the script so far, each with its cycle."""
        try:
            return self.moves().lines()
        except moves.Fault as fault:
            raise misused(str(fault)) from None

    def type(self, at, text):
        """From a cycle on the bytes of a text come on pin 0."""
        if not self.typed:
            self.made["parts"][-1]["attrs"]["baud"] = str(self.baud or self.speed(at))
            with open(os.path.join(self.folder, "diagram.json"), "w", encoding="utf-8") as file:
                file.write(diagrams.text_of(self.made))
        self.typed.append((-(-at // CYCLES), text))
        try:
            module = typist.module(self.typed)
        except ValueError as fault:
            raise misused(str(fault)) from None
        with open(os.path.join(self.folder, f"{TYPIST}.wasm"), "wb") as file:
            file.write(module)

    def speed(self, at):
        """The speed of the bytes that were sent, else what the sketch's text says."""
        run = self.run(at)
        found = frames(run.wave(f"{self.uno}.1").lines[f"{self.uno}.1"], run.sent[:1]) if run.sent else None
        if found:
            return round(16e6 / found[0][1])
        for name in sorted(os.listdir(self.source)):
            if name.endswith((".ino", ".cpp", ".h")):
                with open(os.path.join(self.source, name), encoding="utf-8", errors="replace") as file:
                    begun = re.search(r"\bSerial\.begin\s*\(\s*([0-9]+)", file.read())
                if begun:
                    return int(begun[1])
        self.say("nothing says how fast to type: 9600 baud is taken (--baud N)")
        return 9600

    def run(self, until):
        """A run that has at least the cycles below `until`."""
        us = min(MOST, max(1, -(-until // CYCLES)))
        made_of = (tuple(self.script), tuple(self.typed))
        if self.kept[0] != made_of or self.kept[1].us < us:
            self.kept = (made_of, Run(self, us, self.work))
        return self.kept[1]

    def exactly(self, until):
        """A run that ends with the microsecond of the cycle before `until`."""
        us = min(MOST, max(1, -(-until // CYCLES)))
        made_of = (tuple(self.script), tuple(self.typed))
        for of, run in (self.kept, self.ended):
            if of == made_of and run.us == us:
                return run
        self.ended = (made_of, Run(self, us, tempfile.mkdtemp(dir=self.work)))
        return self.ended[1]


# ---- steps

class Scenario:
    """The steps of a scenario on a board, one after the other; `now` is the cycle that is reached."""

    def __init__(self, board, limit, fail_text, say):
        self.board, self.limit, self.fail_text, self.say = board, limit, fail_text, say
        self.now = 0
        self.seen = 0  # so many bytes were waited for

    def until(self, find):
        """What `find` gives of a run, longer and longer ones up to the time that all may take; None where it never does."""
        ahead = 20_000 * CYCLES
        while True:
            end = min(self.limit, self.now + ahead)
            found = find(self.board.run(end))
            if found is not None or end == self.limit:
                return found
            ahead *= 4

    def over(self, text):
        run = self.board.run(self.limit)
        if self.fail_text and self.fail_text in run.sent:
            return Stop(FAILED, f"{self.fail_text.decode('utf-8', 'replace')!r} is sent")
        return Stop(OVER, f"within {shown(self.limit)} {text}", self.limit)

    def failed(self, text, until=0):
        return Stop(FAILED, f"at {shown(self.now)} {text}", max(until, self.now) + BEYOND)

    def sent_at(self, run, count):
        """The cycle by whose end `count` bytes are sent."""
        uno = self.board.uno
        found = frames(run.wave(f"{uno}.1").lines[f"{uno}.1"], run.sent[:count])
        if found:
            start, bit = found[-1]
            return math.ceil(start + 10 * bit)
        low, high = self.now // CYCLES, run.us  # other frames than 8N1: the shortest run that sends them
        while low + 1 < high:
            middle = (low + high) // 2
            if len(self.board.exactly(middle * CYCLES).sent) >= count:
                high = middle
            else:
                low = middle
        return high * CYCLES

    def pass_time(self, to):
        self.now = max(self.now, to)
        if self.now > self.limit:
            self.now = self.limit
            raise self.over("not all steps are done")

    def check_fail_text(self):
        if self.fail_text:
            run = self.board.run(self.now)
            at = run.sent.find(self.fail_text)
            if at >= 0 and self.sent_at(run, at + len(self.fail_text)) <= self.now:
                raise self.failed(f"{self.fail_text.decode('utf-8', 'replace')!r} was sent")

    # each step: its name with _ in place of -

    def delay(self, value):
        to = self.now + cycles(value)
        if to > self.limit:
            most = "; 10 s is the most" if self.limit < MOST * CYCLES else ", which is the most that a run has"
            self.now = self.limit
            raise self.over(f"all must be done (--timeout, or timeout: in the scenario{most}), and this delay of {value} ends at {shown(to)}")
        self.pass_time(to)

    def wait_serial(self, value):
        text = str(value).encode()
        if not text:
            raise misused("wait-serial: an empty text is there at once: name the text that is to be sent")

        def find(run):
            at = run.sent.find(text, self.seen)
            return None if at < 0 else (at + len(text), self.sent_at(run, at + len(text)))
        found = self.until(find)
        if found is None:
            rest = self.board.run(self.limit).sent[self.seen:]
            raise self.over(f"{value!r} is not sent; from {shown(self.now)} on there is {rest[:200]!r}" + (" .." if len(rest) > 200 else ""))
        self.seen = found[0]
        self.pass_time(found[1])

    def write_serial(self, value):
        if isinstance(value, list):
            if not all(isinstance(byte, int) and 0 <= byte <= 255 for byte in value):
                raise misused(f"write-serial: {value!r} is no list of bytes")
            text = bytes(value)
        else:
            text = str(value).encode()
        self.board.type(self.now, text)

    def set_control(self, value):
        name, control, new = fields(value, "set-control", "part-id", "control", "value", others=("bounce",))
        if self.now == 0 and (name, control, new) in self.board.set_before:
            return
        self.board.script.append((self.now, moved(self.board, str(name), str(control), new, value.get("bounce", False))))

    def expect_pin(self, value):
        name, pin, expected = fields(value, "expect-pin", "part-id", "pin", "value")
        level, since = self.board.run(self.now + 1).wave(f"{name}.{pin}").level(f"{name}.{pin}", self.now)
        if level != level_text(expected, "expect-pin"):
            raise self.failed(f"{name}.{pin} is {level}, since {shown(since)}, and not {expected}")

    def expect_report(self, value):
        lines = value if isinstance(value, list) else [value]
        if self.now == 0:
            raise misused("expect-report: no time has passed yet")
        report = self.board.exactly(self.now).report()
        anywhere = [PLACE.sub(r"\1*", line) for line in report]
        for line in lines:
            if str(line) not in report and not (" pc * " in str(line) and str(line) in anywhere):
                words = str(line).split()[:2]
                alike = [it for it in report if it.split()[:2] == words] or report
                raise self.failed(f"the report has no line {str(line)!r}; it has\n  " + "\n  ".join(alike))

    def expect_shown(self, value):
        name, expected = fields(value, "expect-shown", "part-id", "value")
        if self.now == 0:
            raise misused("expect-shown: no time has passed yet")
        said = showing.said(self.board.exactly(self.now).report(), showing.kinds_of(self.board.folder))
        if name not in said:
            raise misused(f"expect-shown: {name} is no part that shows something in words; there are {', '.join(said) or 'none'}")
        pieces = [said[name], *said[name].split(", "), *said[name].split("\n")]
        for text in expected if isinstance(expected, list) else [expected]:
            if str(text) not in pieces and str(text) not in [piece.strip("|").rstrip() for piece in pieces]:
                raise self.failed(f"{name} shows {said[name]!r}, and not {text!r}")

    def expect_pixel(self, value):
        name, place, expected = fields(value, "expect-pixel", "part-id", "pixel", "value")
        if self.now == 0:
            raise misused("expect-pixel: no time has passed yet")
        if not isinstance(place, int) or isinstance(place, bool) or not re.fullmatch("#[0-9a-fA-F]{6}", str(expected)):
            raise misused("expect-pixel: `pixel` is a number from 0, and `value` a colour such as \"#FF8000\"")
        found = showing.pixel(self.board.exactly(self.now).report(), self.board.made, str(name), place)
        if found is None:
            raise misused(f"expect-pixel: {name} is no part of pixels on the board, or has no pixel {place}")
        if found != str(expected).upper():
            raise self.failed(f"pixel {place} of {name} is {found}, and not {expected}")

    def expect_pulse(self, value):
        name, pin, length = fields(value, "expect-pulse", "part-id", "pin", "for", others=("value", "within"))
        level = level_text(value.get("value", 1), "expect-pulse")
        wanted, slack = cycles(length, "for"), cycles(value.get("within", "0us"), "within")
        which = f"{name}.{pin}"
        found = self.until(lambda run: run.wave(which).pulse(which, level, self.now))
        if found is None:
            raise self.over(f"no whole time in which {which} is {level} begins after {shown(self.now)}")
        self.pass_time(found[1])
        measured = found[1] - found[0]
        if abs(measured - wanted) > slack:
            raise self.failed(f"{which} was {level} for {shown(measured)}, from {shown(found[0])} on, and not for {length} within {value.get('within', '0us')}")

    def expect_within(self, value):
        name, pin, span, after = fields(value, "expect-within", "part-id", "pin", "within", "of", others=("value",))
        first_name, first_pin = fields(after, "of", "part-id", "pin", others=("value",))
        first, second = f"{first_name}.{first_pin}", f"{name}.{pin}"
        first_level, level = level_text(after.get("value", 1), "of"), level_text(value.get("value", 1), "expect-within")
        begun = self.until(lambda run: run.wave(first).edge(first, first_level, self.now))
        if begun is None:
            raise self.over(f"{first} does not become {first_level} after {shown(self.now)}")
        most = cycles(span, "within")
        ended = self.until(lambda run: self.answer(run, second, level, begun, most))
        if not ended:
            self.pass_time(begun)
            run = self.board.run(min(self.limit, begun + most + 1))
            now, since = run.wave(second).level(second, min(begun + most, run.end() - 1))
            raise self.failed(f"{first} becomes {first_level}, and {second} does not become {level} within {span}: it is {now} since {shown(since)}", begun + most)
        self.pass_time(ended)

    @staticmethod
    def answer(run, pin, level, begun, most):
        """The edge's cycle, 0 where it does not come in time, None where the run is too short to tell."""
        at = run.wave(pin).edge(pin, level, begun)
        if at is not None and at <= begun + most:
            return at
        return 0 if run.end() > begun + most or run.us == MOST else None

    STEPS = {"delay": delay, "wait-serial": wait_serial, "write-serial": write_serial, "set-control": set_control, "expect-pin": expect_pin,
             "expect-report": expect_report, "expect-shown": expect_shown, "expect-pixel": expect_pixel, "expect-pulse": expect_pulse, "expect-within": expect_within}

    def play(self, steps, expect_text):
        for place, (word, value, line) in enumerate(steps, 1):
            try:
                self.STEPS[word](self, value)
                self.check_fail_text()
            except Stop as stop:
                raise Stop(stop.status, f"step {place}, {word}: {stop}", stop.until, line, stop.is_error) from None
            self.say(f"{shown(self.now):>14}  {word}: {value!r}")
        if expect_text:
            self.seen = 0
            self.wait_serial(expect_text)
            self.check_fail_text()
            self.say(f"{shown(self.now):>14}  {expect_text!r} is sent")


def fields(value, step, *names, others=()):
    """The fields of a step, each of which it must have."""
    if not isinstance(value, dict):
        raise misused(f"{step}: it has the fields {', '.join(names)}")
    for name in names:
        if name not in value:
            raise misused(f"{step}: there is no {name}")
    for name in value:
        if name not in names and name not in others:
            raise misused(f"{step}: there is no field {name}")
    return [value[name] for name in names]


def level_text(value, step):
    text = {True: "1", False: "0"}.get(value, str(value)) if isinstance(value, bool) else str(value).lower()
    text = {"high": "1", "low": "0"}.get(text, text)
    if text not in ("0", "1", "x", "z"):
        raise misused(f"{step}: value {value!r} is none of 0, 1, x and z")
    return text


def moved(board, name, control, value, bounces=False):
    """A function of moves.Moves and a cycle that does what a set-control says. It is tried once, so that what is wrong is said at its
    step."""
    text = {True: "1", False: "0"}.get(value, str(value)) if isinstance(value, bool) else str(value)
    if not isinstance(bounces, bool):
        raise misused(f"set-control: bounce is true or false, and not {bounces!r}")

    def move(made, at):
        if bounces:
            if control not in ("pressed", "value") or text not in ("0", "1"):
                raise moves.Fault(f"{name}: `pressed` 0 or 1 bounces, and not {control} {text}")
            made.bounce(at, "press" if text == "1" else "release", name)
        else:
            made.move(at, name, control, text)

    try:
        made = board.moves()
        if name not in made.kinds and name not in made.controls:
            raise moves.Fault(f"{name}: no part of this name can be set")
        if made.kinds.get(name, "").startswith("chip-") and name not in made.controls:
            raise moves.Fault(f"{name}: it is a chip, whose attributes are set before the first other step alone")
        move(made, board_now(board))
        made.lines()
    except moves.Fault as fault:
        raise misused(f"set-control: {fault}") from None
    return move


def board_now(board):
    """A cycle that no earlier line is after."""
    return board.script[-1][0] if board.script else 0


# ---- a scenario's file

def own_scenario(folder):
    """The one scenario that is in a folder."""
    try:
        names = sorted(name for name in os.listdir(folder) if FILE.fullmatch(name))
    except OSError as fault:
        raise misused(f"{folder}: {fault.strerror}") from None
    if len(names) != 1:
        raise misused(f"{folder} has {', '.join(names) or 'no scenario'}: name one, or give --expect-text")
    return os.path.join(folder, names[0])


def read_steps(path):
    """(the steps, the other keys) of a scenario's file."""
    try:
        import yaml
    except ImportError:
        raise misused("reading scenarios needs Debian's python3-yaml (or pip's PyYAML)") from None
    try:
        with open(path, encoding="utf-8") as file:
            text = file.read()
        value, tree = yaml.safe_load(text), yaml.compose(text, Loader=yaml.SafeLoader)
    except OSError as fault:
        raise misused(f"{path}: {fault.strerror}") from None
    except (yaml.YAMLError, UnicodeDecodeError, RecursionError) as fault:
        raise misused(f"{path} is no YAML: {fault}") from None
    if not isinstance(value, dict) or not isinstance(value.get("steps"), list):
        raise misused(f"{path} has no list `steps`")
    if "version" not in value:
        raise misused(f"{path} has no `version`: write `version: 1`, by which later ones can be told from this one")
    if value["version"] != 1:
        raise misused(f"{path}: its version is {value['version']!r}, and not 1")
    lines = [step.start_mark.line + 1 for key, node in tree.value if key.value == "steps" for step in node.value]
    steps = []
    for place, step in enumerate(value["steps"], 1):
        if not isinstance(step, dict) or len(step) != 1:
            raise misused(f"{path}: step {place} is not one word with what it takes")
        (word, given), = step.items()
        if word not in Scenario.STEPS:
            raise misused(f"{path}: step {place}: there is no step {word} here; there are {', '.join(Scenario.STEPS)}")
        steps.append(Step(word, given, lines[place - 1]))
    return steps, value


def set_before(folder, steps):
    """Controls of chips that are set before anything else: they are attributes of the diagram."""
    types = diagrams.table()
    try:
        kinds = {part["id"]: part["type"] for part in lower.read_diagram(folder)["parts"]}
    except lower.Fault as fault:
        raise Stop(FAILED, str(fault), is_error=True) from None
    found = []
    for word, value, _ in steps:
        if word != "set-control":
            break
        name, control, new = fields(value, word, "part-id", "control", "value")
        if kinds.get(name, "").startswith("chip-") or "chip" in types["lowered"].get(kinds.get(name), {}):
            found.append((name, control, new))
    return found


def allowed_by(more, given, parts):
    """The words by which a scenario, and the words of the call, say what they mean; each must name something."""
    words = more.get("allow", [])
    if not isinstance(words, list) or not all(isinstance(word, str) for word in words):
        raise misused("allow: it is a list of names, such as [halt, CLKPR]")
    allowed = [*words, *given]
    for word in truth.unknown(allowed, parts):
        raise misused(f"allow: {word!r} is none of {', '.join(truth.KINDS)}, no register that is not there, and no part")
    return allowed


def check_truth(board, scenario, allowed, strict, stop):
    """(what fails a scenario whose steps passed, what is told) of the run up to its end. After a failed step all is told."""
    now = max(scenario.now, stop.until if stop else 0, 1)
    run = board.exactly(now)
    found = truth.findings(board.folder, "\n".join(run.report()), run.wave_file, board.source)
    firmware = os.path.join(board.folder, "firmware.hex")
    found = [it for it in found if not set(it.names) & set(allowed)]
    fails, told = truth.verdict(found, hex_file=firmware, strict=strict)
    if any(it.names[0] == "trap" for it in found):
        script = os.path.join(os.path.dirname(run.report_file), "script.txt") if board.script else None
        told = told + trapped.sentences(board.program, board.folder, "\n".join(run.report()), script, board.budget)
    if not fails or stop:
        return "", told + fails, run
    return f"all steps passed, but at {shown(now)} " + "\n".join([*fails, truth.how_to_allow([it for it in found if it.fails or strict])]), told, run


def expects(steps, *texts):
    """Whether a scenario can fail by what its firmware does."""
    return any(texts) or any(word == "wait-serial" or word.startswith("expect") for word, _, _ in steps)


def play(folder, path, program, limit=None, expect_text=None, fail_text=None, baud=None, say=lambda text: None, outputs=None, budget=None, allow=(), strict=False):
    """Plays a scenario, and returns its Outcome. `outputs` are files by the names serial, vcd, report and page, and the folder
    `again`; the first four may be absent."""
    name, told, again, sent = "", [], "", b""
    try:
        steps, more = read_steps(path) if path else ([], {})
        name = str(more.get("name") or "")
        if limit is None:
            limit = cycles(more.get("timeout", "10s"), "timeout")
        limit = min(limit, MOST * CYCLES)
        baud = baud or more.get("baud")
        if baud is not None and not (isinstance(baud, int) and 300 <= baud <= 2_000_000):
            raise misused(f"baud {baud!r} is no number from 300 to 2000000")
        with tempfile.TemporaryDirectory() as work:
            board = Board(program, folder, work, set_before(folder, steps), any(word == "write-serial" for word, _, _ in steps), baud, say, budget)
            allowed = allowed_by(more, allow, board.types)
            scenario, stop = Scenario(board, limit, fail_text.encode() if fail_text else None, say), None
            try:
                scenario.play(steps, expect_text)
                if strict and not expects(steps, expect_text, fail_text):
                    raise Stop(FAILED, "it expects nothing: no step of it waits for a text or expects anything")
            except Stop as ended:
                stop = ended
            if stop is None or not stop.is_error:
                text, told, run = check_truth(board, scenario, allowed, strict, stop)
                sent = run.sent[-TAIL:]
                stop = Stop(FAILED, text, scenario.now + BEYOND) if text else stop
                if not expects(steps, expect_text, fail_text) and not strict:
                    told = [*told, "it expects nothing: no step of it waits for a text or expects anything"]
                if outputs and any(outputs.values()):
                    again = put_outputs(board, max(scenario.now, stop.until if stop else 0), outputs, name)
            for text in told:
                say(f"{shown(scenario.now):>14}  {text}")
            if stop:
                raise stop
        return Outcome(PASSED, "", told, name, sent=sent, again=again)
    except Stop as stop:
        return Outcome(stop.status, str(stop), told, name, stop.line or 0, stop.is_error, sent, again)


def put_outputs(board, now, outputs, title):
    """Copies what the run up to the end wrote, and returns the command that runs it again, if the project is kept."""
    run = board.exactly(now)
    for name, source in (("vcd", run.wave_file), ("report", run.report_file)):
        if outputs.get(name):
            shutil.copyfile(source, outputs[name])
    if outputs.get("serial"):
        with open(outputs["serial"], "wb") as file:
            file.write(run.sent)
    if outputs.get("page"):
        put_page(board, run, outputs["page"], title)
    return keep_project(board, run.us, outputs["again"]) if outputs.get("again") else ""


def put_page(board, run, page, title):
    """Writes the page of a run (docs/LOOK.md); what look says is said."""
    words = [sys.executable, "-B", os.path.join(HERE, "look", "look.py"), board.folder, "--us", str(run.us), "-o", page, "--title", title or os.path.basename(os.path.abspath(board.source))]
    words += ["--script", os.path.join(os.path.dirname(run.report_file), "script.txt")] if board.script else []
    words += ["--budget", str(board.budget)] if board.budget else []
    ran = subprocess.run(words, env=dict(os.environ, PROGRAM=board.program), stdout=subprocess.PIPE, stderr=subprocess.STDOUT, text=True, errors="replace", check=False)
    if ran.returncode:
        board.say(f"no page: {ran.stdout.strip()}")


def command_again(folder, words):
    """The command that shows a kept run: of this repository, in a folder."""
    program = os.path.normpath(os.path.join(HERE, "..", "mudflatjar"))
    return f"cd {shlex.quote(os.path.abspath(folder))} && {shlex.quote(program)} look {words} --open"


def keep_project(board, us, folder):
    """Puts the project with all that was set and typed into a folder, and returns the command that shows its run."""
    shutil.copytree(board.folder, os.path.join(folder, "project"), dirs_exist_ok=True)
    words = f"project --us {us}"
    if board.script:
        words += " --script script.txt"
        with open(os.path.join(folder, "script.txt"), "w", encoding="utf-8") as file:
            file.writelines(f"{at}cy {line}\n" for at, line in board.lines())
    if board.budget:
        words += f" --budget {board.budget}"
    return put_again(folder, words)


def put_again(folder, words):
    """Writes the command that shows a kept run into again.txt, and returns it."""
    command = command_again(folder, words)
    with open(os.path.join(folder, "again.txt"), "w", encoding="utf-8") as file:
        file.write(command + "\n")
    return command


def main(words):
    parser = option.each_once(argparse.ArgumentParser(usage=__doc__, add_help=False))
    for name in ("timeout", "expect-text", "fail-text", "program", "serial", "vcd", "report", "page", "keep"):
        parser.add_argument(f"--{name}")
    parser.add_argument("--baud", type=int)
    parser.add_argument("--budget", type=option.budget)
    parser.add_argument("--allow", action="append", default=[])
    for name in ("quiet", "strict"):
        parser.add_argument(f"--{name}", action="store_true")
    parser.add_argument("-h", "--help", action="store_true")
    parser.add_argument("folder", nargs="?")
    parser.add_argument("scenario", nargs="?")
    given = parser.parse_args(words)
    if given.help or not given.folder:
        print(__doc__, file=sys.stdout if given.help else sys.stderr)
        return PASSED if given.help else MISUSED
    say = (lambda text: None) if given.quiet else lambda text: print(text, flush=True)
    try:
        limit = cycles(given.timeout, "--timeout") if given.timeout else None
        path = given.scenario or (None if given.expect_text else own_scenario(given.folder))
        if given.keep:
            os.makedirs(given.keep, exist_ok=True)
    except Stop as stop:
        print(f"scenario: {stop}", file=sys.stderr)
        return stop.status
    except OSError as fault:
        print(f"scenario: --keep {given.keep}: {fault.strerror}", file=sys.stderr)
        return FAILED
    if limit and limit > MOST * CYCLES:
        print("scenario: a run has 10 s at most, so that is the time", file=sys.stderr)
    outputs = {"serial": given.serial, "vcd": given.vcd, "report": given.report, "page": given.page, "again": given.keep}
    ended = play(given.folder, path, program_path(given.program), limit, given.expect_text, given.fail_text, given.baud, say, outputs, given.budget, given.allow, given.strict)
    if ended.status:
        for text in ended.told if given.quiet else ():
            print(f"scenario: {text}", file=sys.stderr)
        place = f"{path}:{ended.line}: " if ended.line else ""
        print(f"scenario: {place}{ended.text}", file=sys.stderr)
        if ended.again:
            print(f"scenario: to see it again: {ended.again}", file=sys.stderr)
    return ended.status


if __name__ == "__main__":
    try:
        sys.exit(main(sys.argv[1:]))
    except KeyboardInterrupt:
        sys.exit(130)
