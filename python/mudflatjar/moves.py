"""What a hand does with parts, as values of the board's parts in cycles: lines of a script, and controls in their units."""
from __future__ import annotations

import re
from collections.abc import Mapping
from typing import Any

from . import tools
from .times import CYCLES_PER_US

Line = tuple[int, str, int]
"""A cycle, a part, a value."""
ACTIONS = {"press": 1, "release": 0}


def line_of(cycle: int, text: str) -> Line:
    """A line of a script without its time, as `press btn1` or `set pot1 512`."""
    action, part, *value = text.split()
    return cycle, part, int(value[0]) if value else ACTIONS[action]


class Moves:
    """The controls of a board's parts, moved one after another."""

    def __init__(self, diagram: Mapping[str, Any]) -> None:
        self.module = tools.module("moves")
        self.made = self.module.Moves(dict(diagram))

    def lines(self, cycle: int, part: str, control: str, value: str) -> list[Line]:
        """The values that a control's move becomes. ValueError: the part has not the control, or the control not the value."""
        self.made.made.clear()
        before = {name: [*map(tuple, times)] for name, times in self.made.motions.items()}
        try:
            self.made.move(cycle, part, control, value)
        except self.module.Fault as fault:
            raise ValueError(str(fault)) from None
        found = [line_of(at, text) for at, text in self.made.made]
        for name, times in self.made.motions.items():
            old = before.get(name, [])
            if old != [*map(tuple, times[: len(old)])]:  # what was given is not taken back
                times[:] = [[*it] for it in old]
                raise ValueError(f"{name} still sees the motion before: let it end first")
            out = self.made.controls[name]["ids"][""]
            found += [line for begin, end in times[len(old) :] for line in ((begin, out, 1), (end, out, 0))]
        return sorted(found, key=lambda line: line[0])


def read_script(path: str, diagram: Mapping[str, Any]) -> list[Line]:
    """The lines of a script (docs/SCRIPTS.md) for a board. OSError; ValueError: what is wrong, with the number of the line."""
    with open(path, encoding="utf-8", errors="replace") as file:
        text = file.read()
    module = tools.module("moves")
    try:
        text, _ = module.expanded(text, dict(diagram))
    except module.Fault as fault:
        raise ValueError(f"{path}: {fault}") from None
    found: list[Line] = []
    for number, line in enumerate(text.splitlines(), 1):
        words = re.fullmatch(r"([0-9]{1,9})(us|cy) +((?:press|release) +\S+|set +\S+ +[0-9]{1,5})", line)
        if words:
            found.append(line_of(int(words[1]) * (CYCLES_PER_US if words[2] == "us" else 1), words[3]))
        elif line and not line.startswith("#"):
            raise ValueError(f"{path}: line {number}: {line!r} is no line of a script (docs/SCRIPTS.md)")
    return found
