"""What ends a run: conditions of the protocol, with what they are in words."""
from __future__ import annotations

from typing import Literal, NamedTuple

Level = Literal["0", "1", "z", "x"]


class Condition(NamedTuple):
    """A condition of `run`. A pin is named as in the diagram, uno:13."""

    words: str
    """As the protocol has it."""
    text: str
    """For messages: what holds where it holds."""


def wave_name(pin: str) -> str:
    """The name that the wave has for a pin of the diagram: uno.13 for uno:13."""
    return pin.replace(":", ".", 1)


def becomes(pin: str, level: Level | int) -> Condition:
    """That a pin has a level: 0, 1, "z" (nothing drives it) or "x" (two drive it)."""
    return Condition(f"level {wave_name(pin)} {level}", f"{pin} is {level}")


def high(pin: str) -> Condition:
    """That a pin is 1."""
    return becomes(pin, "1")


def low(pin: str) -> Condition:
    """That a pin is 0."""
    return becomes(pin, "0")


def edge(pin: str) -> Condition:
    """That a pin's level is another one than in the cycle before."""
    return Condition(f"edge {wave_name(pin)}", f"{pin} changes")


def sent(count: int) -> Condition:
    """That the Uno has sent so many bytes since the beginning."""
    return Condition(f"sent {count}", f"{count} bytes are sent")
