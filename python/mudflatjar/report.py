"""The report of a board (docs/REPORT.md), by what its lines are about."""
from __future__ import annotations

from .faults import BoardError


class Report:
    """How the parts of a board are."""

    def __init__(self, text: str) -> None:
        """`text` is the report's, a fact a line."""
        self.text = text
        self.lines = text.splitlines()

    def facts(self, kind: str, name: str) -> list[str]:
        """The words after `KIND NAME` of its first such line.

        BoardError: it has none."""
        for line in self.lines:
            words = line.split(" ")
            if words[:2] == [kind, name]:
                return words[2:]
        raise BoardError(f"the report has no line {kind} {name}; it has\n  " + "\n  ".join(self.lines))

    @property
    def mode(self) -> str:
        """What the Uno's core does: `run`, `sleep` or `halt`."""
        return self.of_core()[2]

    @property
    def is_halted(self) -> bool:
        """Whether the core has met a word that it cannot execute."""
        return self.mode == "halt"

    @property
    def pc(self) -> int:
        """The word address of the core's next instruction, or of the word at which it halted."""
        return int(self.of_core()[1], 16)

    def of_core(self) -> list[str]:
        """The words `pc 0xHHHH run` of the Uno. BoardError: the report has none."""
        for line in self.lines:
            words = line.split(" ")
            if words[0] == "uno" and words[2:3] == ["pc"]:
                return words[2:]
        raise BoardError("the report has no line of the Uno's core; it has\n  " + "\n  ".join(self.lines))

    def is_alive(self, chip: str) -> bool:
        """Whether no trap has ended a chip. BoardError: there is no such chip."""
        return self.facts("chip", chip)[0] == "alive"

    def is_lit(self, led: str) -> bool:
        """Whether an LED is lit. BoardError: there is no such LED."""
        return self.facts("led", led)[0] == "on"

    def times_lit(self, led: str) -> int:
        """In how many cycles an LED became lit. BoardError: there is no such LED."""
        return int(self.facts("led", led)[2])

    def value(self, part: str) -> int:
        """The value of a button, switch or potentiometer. BoardError: there is no such part."""
        return int(self.facts("input", part)[0])

    def lcd(self, name: str) -> list[str]:
        """The lines of a text display, 16 characters each; none if there is no such display."""
        begin = f"lcd {name} "
        return [line[len(begin) + 3 : -1] for line in self.lines if line.startswith(begin)]

    def printed(self, chip: str) -> list[str]:
        """The lines that a chip printed."""
        begin = f"chip {chip} | "
        return [line[len(begin) :] for line in self.lines if line.startswith(begin)]
