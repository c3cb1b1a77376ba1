"""A board that runs in pieces, for tests."""
from __future__ import annotations

import os
import shutil
import tempfile
from collections.abc import Iterable, Sequence
from types import TracebackType
from typing import Literal

from .conditions import Condition
from .faults import LeftOut, ProgramError, Refused, TimeUp
from .live import LiveBoard, ahead
from .moves import Line, Moves, read_script
from .pin import DEFAULT_TIMEOUT_US, Pin
from .program import program
from .project import OPEN, Attributes, Project
from .report import Report
from .serial import Serial
from .times import CYCLES_PER_US, LAST, SCRIPT_LAST, SCRIPT_MOST, shown
from .truth import Truth, Verdict

PIECE = 1_600_000  # cycles of a request, so that the program soon sees it if this process has ended
Path = str | os.PathLike[str]


class Board:
    """A board on which firmware runs as far as a test lets it:

        with Board("folder") as b:
            b.run(ms=5); b.press("btn1"); b.serial.expect("pressed")

    What was done is a script (`script_text`), under which `mudflatjar run` gives the same board."""

    def __init__(
        self,
        folder: Path,
        *,
        inputs: Sequence[str] = (),
        serial_input: bool = True,
        allow: Iterable[str] = (),
        firmware: Path | None = None,
        attributes: Attributes | None = None,
        budget: int | None = None,
        baud: int | None = None,
        anyway: bool = False,
        script: Path | None = None,
        keep: Path | None = None,
        program_path: Path | None = None,
    ) -> None:
        """A board in cycle 0, of a folder as `mudflatjar play` takes it: its sketch is built, its diagram lowered.

        inputs         pins that the test drives, as uno:7
        serial_input   whether `serial.write` types on pin 0
        allow          what the test means, and so does not fail by: "halt", "trap", "left-out", a register as "CLKPR"
        firmware       a HEX or ELF file in place of the folder's
        attributes     of parts and chips, by their ids: {"u1": {"temperature": 31}}
        budget         units of fuel of each call of a chip
        baud           the sketch's speed in bits a second, for `serial.write`; else what it sent tells it
        anyway         leaves out what cannot be simulated, in place of failing
        script         what a hand does: a file (docs/SCRIPTS.md)
        keep           a folder that gets the evidence if the `with` is left by an exception
        program_path   the program, if it is not that of the package (MUDFLATJAR in the environment)

        ProjectError: no board can be made of the folder. ProgramError: there is no program, or it refuses the project.
        """
        self.box = tempfile.mkdtemp(prefix="mudflatjar-")
        try:
            self.project = Project(
                os.fspath(folder),
                self.box,
                inputs,
                serial_input=serial_input,
                firmware=as_text(firmware),
                attributes=attributes,
                anyway=anyway,
            )
            self.truth = Truth(self.project, [*allow])
            words = [program(as_text(program_path)), "serve", self.project.made, "--vcd", self.project.vcd]
            self.live = LiveBoard([*words, "--budget", str(budget)] if budget is not None else words)
        except BaseException:
            shutil.rmtree(self.box, ignore_errors=True)
            raise
        self.rx, self.tx = f"{self.project.uno}:0", f"{self.project.uno}:1"
        self.keep = as_text(keep)
        self.serial = Serial(self, baud)
        self.script: list[Line] = []
        self.done: list[tuple[int, str]] = []
        self.driven: set[str] = set()
        self.moves = Moves(self.project.diagram)
        self.is_open = True
        if script is not None:
            try:
                self.give(read_script(os.fspath(script), self.project.diagram), f"script {os.fspath(script)}")
            except BaseException:
                self.close()
                raise

    # ---- time

    @property
    def now(self) -> int:
        """The cycle that comes next, of 62.5 ns each."""
        return self.live.now

    @property
    def us(self) -> float:
        """The time in microseconds."""
        return self.now / CYCLES_PER_US

    def after(self, us: float) -> int:
        """The cycle so many microseconds from now, one cycle at least."""
        return ahead(self.now, round(us * CYCLES_PER_US))

    def run(self, us: float = 0, *, ms: float = 0, s: float = 0, cycles: int = 0) -> None:
        """Lets time pass. ValueError: it would pass the end of a board's time, or go back."""
        until = self.now + round((us + 1000 * ms + 1e6 * s) * CYCLES_PER_US) + cycles
        if not self.now <= until <= LAST:
            raise ValueError(f"a board runs forwards, and {LAST // 16_000_000} s at most")
        self.run_to(until)

    def run_to(self, cycle: int, conditions: Sequence[str] = ()) -> int:
        """Runs up to a cycle, or until one of the conditions (docs/SERVE.md) holds; its number, from 1, or 0 where none did."""
        while self.now < cycle:
            ran = self.live.run(min(cycle, self.now + PIECE), conditions)
            self.serial.all += ran.sent
            if ran.held:
                return ran.held
        return 0

    def until(self, *conditions: Condition, timeout_us: float = DEFAULT_TIMEOUT_US) -> Condition:
        """Runs until one of the conditions holds, in the very cycle, one cycle at least; which one it is.

        TimeUp: none does within the time."""
        begin = self.now
        held = self.run_to(self.after(timeout_us), [it.words for it in conditions])
        if not held:
            what = " or ".join(it.text for it in conditions)
            raise TimeUp(f"from {shown(begin)} to {shown(self.now)} there was no cycle in which {what}")
        return conditions[held - 1]

    # ---- what a hand does

    def set(self, part: str, value: int, cycle: int | None = None) -> None:
        """Gives a part a value, now or in a later cycle: a button or a slide switch 0 or 1, a DIP switch 0 to 255, a keypad 0 to
        65535, a potentiometer 0 to 1023 (docs/SCRIPTS.md). The wires have it one cycle later.

        Refused: there is no such part, it does not take the value, or the cycle is over."""
        at = self.now if cycle is None else cycle
        self.give([(at, part, value)], f"set {part} {value}")

    def give(self, lines: Sequence[Line], words: str) -> None:
        """Gives values to parts, as (cycle, part, value). `words` say in evidence what was done. Refused: the first that is not
        taken; all others are."""
        answers = self.live.ask_all([f"{at}cy set {part} {value}" for at, part, value in lines])
        self.script += [line for line, answer in zip(lines, answers) if not isinstance(answer, Refused)]
        for answer in answers:
            if isinstance(answer, Refused):
                raise answer
        if lines:
            self.done.append((lines[0][0], words))

    def move(self, part: str, control: str, value: float | str, cycle: int | None = None) -> None:
        """Moves a control of a part to a value in its unit, now or in a later cycle, as a slider of the editor does: the `temperature`
        of a sensor, the `distance` that an HC-SR04 sees, a key of a remote control (docs/PARTS.md, "Controls").

        ValueError: the part has not the control, or the control not the value. Refused: the cycle is over."""
        at = self.now if cycle is None else cycle
        self.give(self.moves.lines(at, part, control, str(value)), f"move {part} {control} {value}")

    def press(self, part: str) -> None:
        """Presses a push button."""
        self.set(part, 1)

    def release(self, part: str) -> None:
        """Releases a push button."""
        self.set(part, 0)

    def tap(self, part: str, ms: float = 50) -> None:
        """Presses a push button, lets so many milliseconds pass, and releases it."""
        self.press(part)
        self.run(ms=ms)
        self.release(part)

    def drive(self, pin: str, level: Literal[0, 1] | None, cycle: int | None = None) -> None:
        """Drives a pin from outside, or lets go of it (None), now or in a later cycle.

        ValueError: the board was made without it: Board(folder, inputs=["uno:7"])."""
        line = self.line_to_drive(pin, level, self.now if cycle is None else cycle)
        self.give([line], f"drive {pin} {level}" if level is not None else f"let go of {pin}")

    def line_to_drive(self, pin: str, level: Literal[0, 1] | None, cycle: int) -> Line:
        """The line of a script by which a pin is driven or let go of."""
        source = self.project.source_of(pin)
        (self.driven.discard if level is None else self.driven.add)(pin)
        return (cycle, source, OPEN if level is None else level)

    # ---- what there is to see

    def pin(self, name: str) -> Pin:
        """A pin of a part, named as in the diagram: uno:13."""
        return Pin(self, name)

    @property
    def report(self) -> Report:
        """The report, now (docs/REPORT.md)."""
        return Report(self.project.without_sources(self.live.report()))

    # ---- the truth of a test

    def verdict(self) -> Verdict:
        """What did not happen as the firmware, a chip or the diagram meant it, though all that the test expects comes true."""
        if not self.now:
            return Verdict(["the board did not run"], [], "")
        return self.truth.verdict(self.report.text, self.live.omissions())

    def left_out(self) -> list[str]:
        """What fails a test: a halted core, a chip that a trap ended, what is not simulated and was asked for. A sentence each,
        without what is allowed."""
        return self.verdict().fails

    def check(self) -> None:
        """LeftOut: the core halted, a trap ended a chip, or something that is not simulated was asked for."""
        found = self.verdict()
        if found.fails:
            raise LeftOut(" ".join(["; ".join(found.fails), found.how]).strip())

    # ---- evidence

    def script_text(self) -> str:
        """What was done, as a script (docs/SCRIPTS.md): a run under it gives the same board, as far as a script reaches."""
        return "".join(f"{at}cy set {part} {value}\n" for at, part, value in sorted(self.script, key=lambda it: it[0]))

    def again(self) -> str:
        """The words after `mudflatjar` that show this board in the folder of `kept`: those of `look`."""
        us = min(SCRIPT_LAST // CYCLES_PER_US, max(1, -(-self.now // CYCLES_PER_US)))
        return f"look project --us {us}" + (" --script script.txt" if self.script else "") + " --open"

    def evidence(self, folder: Path | None = None) -> str:
        """What a failed test shows: the time, what was sent, the report, what was left out, what was done, and the command that
        opens the page of it if it is kept in a folder."""
        sent = bytes(self.serial.all[-400:])
        lines = [f"time: {shown(self.now)} (cycle {self.now})", f"sent: {sent!r}"]
        if len(self.serial.all) > len(sent):
            lines[1] += f", the last of {len(self.serial.all)} bytes"
        verdict = self.verdict()
        lines += [*self.report.lines, *(f"left out: {it}" for it in [*verdict.fails, *verdict.told])]
        done = [f"  {shown(at):>14}  {words}" for at, words in sorted(self.done, key=lambda it: it[0])]
        lines += ["what was done:" if len(done) <= 40 else f"what was done last, of {len(done)}:"] if done else []
        lines += done[-40:]
        if folder is not None:
            lines += [f"kept in {os.fspath(folder)}; there, with the path of mudflatjar: mudflatjar {self.again()}"]
        return "\n".join(lines)

    def kept(self, folder: Path) -> None:
        """Puts what a failed test leaves into a folder, which is made: the project, its script, the wave up to now, the bytes that
        were sent, the report, the requests, and in again.txt the commands that show the same. OSError."""
        os.makedirs(folder, exist_ok=True)
        us = self.again().split()[3]
        again = (
            f"In this folder, with the path of mudflatjar:\nmudflatjar {self.again()}\nmudflatjar run project --us {us}"
        )
        again += (" --script script.txt" if self.script else "") + " --vcd again.vcd --report again-report.txt\n"
        if self.now > SCRIPT_LAST:
            again += f"The board ran up to {shown(self.now)}; these show its first 10 s.\n"
        if len(self.script) > SCRIPT_MOST:
            again += f"script.txt has {len(self.script)} lines; a script of these commands may have {SCRIPT_MOST}.\n"
        again += "All of it, at any length:\nmudflatjar serve project --vcd again.vcd <requests.txt\n"
        requests = "".join(f"{it}\n" for it in self.live.requests)
        texts = {"serial.txt": bytes(self.serial.all), "script.txt": self.script_text().encode()}
        texts |= {"requests.txt": requests.encode(), "again.txt": again.encode()}
        texts["report.txt"] = self.live.report().encode()
        for name, text in texts.items():
            with open(os.path.join(folder, name), "wb") as file:
                file.write(text)
        shutil.copytree(self.project.made, os.path.join(folder, "project"), dirs_exist_ok=True)
        self.live.wave()
        shutil.copyfile(self.project.vcd, os.path.join(folder, "wave.vcd"))

    # ---- the end

    def close(self) -> None:
        """Ends the board and removes its files. It may be called again."""
        if self.is_open:
            self.is_open = False
            self.live.quit()
            shutil.rmtree(self.box, ignore_errors=True)

    def __enter__(self) -> Board:
        return self

    def __exit__(
        self, kind: type[BaseException] | None, fault: BaseException | None, trace: TracebackType | None
    ) -> None:
        try:
            if kind is None:
                try:
                    self.check()
                except LeftOut as left:
                    self.tell(left)
                    raise
            elif fault is not None:
                self.tell(fault)
        finally:
            self.close()

    def tell(self, fault: BaseException) -> None:
        """Adds the evidence to an exception as a note, and keeps it if a folder was named."""
        try:
            if self.keep:
                self.kept(self.keep)
            fault.add_note(self.evidence(self.keep))
        except (OSError, ProgramError, Refused) as why:
            fault.add_note(f"the evidence could not be had: {why}")


def as_text(path: Path | None) -> str | None:
    """A path as a text."""
    return None if path is None else os.fspath(path)
