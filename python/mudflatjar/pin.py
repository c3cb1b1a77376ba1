"""A pin of a part, with what a test asks of it."""
from __future__ import annotations

from typing import TYPE_CHECKING, Literal, cast

from .conditions import Level, becomes, edge, wave_name
from .times import CYCLES_PER_US

if TYPE_CHECKING:
    from .board import Board

DEFAULT_TIMEOUT_US = 1_000_000.0
"""How long a test waits if it says nothing: a simulated second."""


class Pin:
    """A pin of a part, named as in the diagram: uno:13. Times are microseconds, exact to a cycle (0.0625 us)."""

    def __init__(self, board: Board, name: str) -> None:
        self.board, self.name = board, name

    @property
    def level(self) -> Level:
        """`0`, `1`, `z` (nothing drives it) or `x` (two drive it), now. Refused: there is no such pin."""
        return cast(Level, self.board.live.level(wave_name(self.name)))

    @property
    def is_high(self) -> bool:
        """Whether the level is 1."""
        return self.level == "1"

    @property
    def is_low(self) -> bool:
        """Whether the level is 0."""
        return self.level == "0"

    def wait(self, level: Level | int, timeout_us: float = DEFAULT_TIMEOUT_US) -> float:
        """Runs until the pin has the level, not at all if it has it. The time then. TimeUp: it does not come to have it."""
        if self.level != str(level):
            self.board.until(becomes(self.name, level), timeout_us=timeout_us)
        return self.board.us

    def wait_edge(self, level: Level | int, timeout_us: float = DEFAULT_TIMEOUT_US) -> float:
        """Runs until the pin becomes the level, after another one if it has it now. The time then. TimeUp: it does not."""
        limit = self.board.after(timeout_us)
        while self.level == str(level):
            self.board.until(edge(self.name), timeout_us=self.left(limit))
        return self.wait(level, self.left(limit))

    def pulse(self, level: Level | int = 1, timeout_us: float = DEFAULT_TIMEOUT_US) -> float:
        """How long the pin has the level when it becomes it next. TimeUp: the pulse does not end within the time."""
        limit = self.board.after(timeout_us)
        begin = self.wait_edge(level, timeout_us)
        self.board.until(edge(self.name), timeout_us=self.left(limit))
        return self.board.us - begin

    def period(self, timeout_us: float = DEFAULT_TIMEOUT_US) -> float:
        """From one rise to the next. TimeUp: there are no two within the time."""
        limit = self.board.after(timeout_us)
        begin = self.wait_edge(1, timeout_us)
        return self.wait_edge(1, self.left(limit)) - begin

    def drive(self, level: Literal[0, 1] | None) -> None:
        """Drives the pin from outside from now on, or lets go of it (None). ValueError: the board was made without it as an input."""
        self.board.drive(self.name, level)

    def left(self, limit: int) -> float:
        """The microseconds up to a cycle."""
        return (limit - self.board.now) / CYCLES_PER_US
