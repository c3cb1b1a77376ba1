"""A board by the names that users of pytest-embedded know: `dut.expect`, `dut.expect_exact`, `dut.write`."""
from __future__ import annotations

import re
from collections.abc import Sequence
from typing import Union

from .board import Board

Pattern = Union[str, bytes, re.Pattern[bytes], re.Pattern[str]]
DEFAULT_TIMEOUT = 30.0
"""Simulated seconds."""


class Dut:
    """The device under test. Its times are simulated seconds; `board` is the board, for all else."""

    def __init__(self, board: Board) -> None:
        self.board = board

    def expect(self, pattern: Pattern | Sequence[Pattern], timeout: float = DEFAULT_TIMEOUT) -> re.Match[bytes]:
        """Runs until the Uno has sent what a regular expression, or the first of several, matches. Groups are bytes.

        TimeUp: nothing matches within the time. re.error: a text is no regular expression."""
        several = [pattern] if isinstance(pattern, (str, bytes, re.Pattern)) else [*pattern]
        joined = b"|".join(b"(?:" + bytes_of(it) + b")" for it in several)
        flags = 0
        for it in several:
            flags |= it.flags & ~re.UNICODE if isinstance(it, re.Pattern) else 0
        wanted = re.compile(joined if len(several) > 1 else bytes_of(several[0]), flags)
        return self.board.serial.expect(wanted, timeout_us=1e6 * timeout)

    def expect_exact(
        self, text: str | bytes | Sequence[str | bytes], timeout: float = DEFAULT_TIMEOUT
    ) -> re.Match[bytes]:
        """Runs until the Uno has sent a text, or the first of several. TimeUp: it has not within the time."""
        several = [text] if isinstance(text, (str, bytes)) else [*text]
        if len(several) == 1:
            return self.board.serial.expect(several[0], timeout_us=1e6 * timeout)
        return self.expect([re.escape(bytes_of(it)) for it in several], timeout)

    def write(self, data: str | bytes) -> None:
        """Types bytes to the Uno, at the sketch's speed. BoardError: nothing says it, since the sketch has sent nothing yet."""
        self.board.serial.write(data)


def bytes_of(pattern: Pattern) -> bytes:
    """A pattern's bytes."""
    text = pattern.pattern if isinstance(pattern, re.Pattern) else pattern
    return text.encode() if isinstance(text, str) else text
