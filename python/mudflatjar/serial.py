"""The Uno's serial port, from the other side."""
from __future__ import annotations

import math
import re
from typing import TYPE_CHECKING

from . import tools
from .conditions import sent, wave_name
from .faults import BoardError, TimeUp
from .pin import DEFAULT_TIMEOUT_US
from .times import CYCLES_PER_US, shown

if TYPE_CHECKING:
    from .board import Board

FRAME = 10  # bits: a start bit, eight of data, a stop bit


class Serial:
    """The Uno's serial port: what it sent, and bytes that are typed to it."""

    def __init__(self, board: Board, baud: int | None = None) -> None:
        self.board, self.baud = board, baud
        self.all = bytearray()  # all that the Uno sent
        self.seen = 0  # so much of it was expected or read already
        self.free = 0  # the cycle from which on the line to the Uno is free
        self.bit: float | None = None  # cycles of a bit, once what was sent has told them

    @property
    def received(self) -> bytes:
        """All bytes that the Uno has sent since the beginning."""
        return bytes(self.all)

    def read(self) -> bytes:
        """What came since the last `read`, `expect` or `line`. No time passes."""
        found, self.seen = bytes(self.all[self.seen :]), len(self.all)
        return found

    def expect(
        self, wanted: bytes | str | re.Pattern[bytes], timeout_us: float = DEFAULT_TIMEOUT_US
    ) -> re.Match[bytes]:
        """Runs until a text or a pattern has come, after what was expected before, and no cycle longer.

        TimeUp: it has not come by then; the message has what came in its place."""
        text = wanted.encode() if isinstance(wanted, str) else wanted
        pattern = re.compile(re.escape(text)) if isinstance(text, bytes) else text
        begin, limit = self.seen, self.board.after(timeout_us)
        while True:
            found = pattern.search(self.all, self.seen)
            if found:
                self.seen = found.end()
                return found
            needed = len(text) - overlap(self.all[self.seen :], text) if isinstance(text, bytes) else 1
            if not self.board.run_to(limit, [sent(len(self.all) + needed).words]):
                rest = bytes(self.all[begin:])
                shown_rest = repr(rest[-200:]) + (f", the last of {len(rest)} bytes" if len(rest) > 200 else "")
                raise TimeUp(f"by {shown(self.board.now)} {wanted!r} was not sent; there was {shown_rest}")

    def line(self, timeout_us: float = DEFAULT_TIMEOUT_US) -> str:
        """The next line, without its end; what is no UTF-8 is shown as U+FFFD. TimeUp: none has come by then."""
        return self.expect(re.compile(rb"([^\n]*)\n"), timeout_us)[1].rstrip(b"\r").decode("utf-8", "replace")

    def write(self, data: bytes | str, baud: int | None = None) -> None:
        """Types bytes on pin 0 from now on, after those that are being typed; no time passes. The speed is `baud` bits a second, else
        the board's, else that of what the sketch has sent. What is typed before `Serial.begin` is lost, as on a real board.

        BoardError: nothing says the speed. ValueError: `baud` is not above 0, or the board was made with serial_input=False.
        """
        bit = self.cycles_of_a_bit() if baud is None else cycles_at(baud)
        pin = self.board.rx
        at = max(self.board.now, self.free)
        lines: list[tuple[int, str, int]] = []
        if pin not in self.board.driven:  # an open line reads 0: it is idle for a frame before the first start bit
            lines.append(self.board.line_to_drive(pin, 1, at))
            at += round(FRAME * bit)
        for byte in data.encode() if isinstance(data, str) else data:
            last = 1
            for place, level in enumerate([0, *(byte >> n & 1 for n in range(8)), 1]):
                if level != last:
                    lines.append(self.board.line_to_drive(pin, 1 if level else 0, round(at + place * bit)))
                last = level
            at = math.ceil(at + FRAME * bit)
        self.board.give(lines, f"type {data!r} at {round(CYCLES_PER_US * 1e6 / bit)} bits a second")
        self.free = at

    def cycles_of_a_bit(self) -> float:
        """The cycles of a bit at the speed of `baud`, or, where that is None, at the one of what the Uno has sent, by the wave of its
        pin 1: of the last byte when this was asked first.

        BoardError: it has sent nothing that says it."""
        if self.baud is not None:
            return cycles_at(self.baud)
        if self.bit is None and self.all:
            self.board.live.wave()
            wave, name = tools.module("wave"), wave_name(self.board.tx)
            found = wave.frames(wave.Wave(self.board.project.vcd, [name]).lines[name], bytes(self.all))
            self.bit = found[-1][1] if found else None
        if self.bit is None:
            had = "what the sketch has sent does not tell its speed" if self.all else "the sketch has sent nothing yet"
            raise BoardError(
                f"by {shown(self.board.now)} {had}: say it as write(.., baud=9600) or Board(.., baud=9600), or wait for its first text"
            )
        return self.bit

    def flush(self) -> None:
        """Runs until all is typed."""
        if self.free > self.board.now:
            self.board.run_to(self.free)


def cycles_at(baud: int) -> float:
    """The cycles of a bit at a speed in bits a second. ValueError: it is not above 0."""
    if baud <= 0:
        raise ValueError(f"a speed of {baud} bits a second types nothing")
    return CYCLES_PER_US * 1e6 / baud


def overlap(have: bytes | bytearray, text: bytes) -> int:
    """The length of the longest begin of the text with which what came ends."""
    return next(n for n in range(min(len(have), len(text)), -1, -1) if n == 0 or have.endswith(text[:n]))
