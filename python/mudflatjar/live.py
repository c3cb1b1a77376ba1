"""The line protocol of `mudflatjar serve` (docs/SERVE.md), a method for each request. Times are cycles of 62.5 ns."""
from __future__ import annotations

import subprocess
from collections.abc import Sequence
from types import TracebackType
from typing import NamedTuple

from .faults import NotServed, ProgramError, Refused, refused
from .times import LAST

WORDS = 2  # the status of a program that does not understand its words
MOST_AHEAD = 256  # requests that are sent before the first answer is read: no pipe gets full by them
Answer = tuple[bytes, list[str]]
"""A block, and the words after its length."""


class Ended(ProgramError):
    """The live board's program ended; its status and what it said."""


class Ran(NamedTuple):
    """How a run ended."""

    held: int
    """The number of the condition that held, from 1; 0 where the time was over."""
    sent: bytes
    """What the Uno sent meanwhile."""


class LiveBoard:
    """A running live board. `now` is the cycle that comes next.

    It ends with `quit`, or when this process ends, however that comes: the end of its input is its end. It is in a process group of
    its own, so Ctrl-C ends a test and not the board that the test still asks how far it came."""

    def __init__(self, command: Sequence[str]) -> None:
        """Begins a live board by its words, `mudflatjar serve FOLDER ..`.

        ProgramError: it cannot be begun. Ended: it refused the project; the text is the program's line."""
        try:
            self.process = subprocess.Popen(
                [*command],
                stdin=subprocess.PIPE,
                stdout=subprocess.PIPE,
                stderr=subprocess.PIPE,
                start_new_session=True,
            )
        except OSError as fault:
            raise ProgramError(f"{command[0]}: {fault.strerror}") from None
        self.words = [*command]
        self.now = 0
        self.requests: list[str] = []
        self.unread = 1  # answers that are to come
        try:
            self.read_answer("")
        except BaseException:
            self.quit()
            raise

    # ---- requests and answers

    def ask(self, request: str) -> Answer:
        """(the block, the words after it) that answer a request.

        NotServed: the program has not this request. Refused: the live board refused it. Ended: its program ended."""
        self.send([request])
        return self.read_answer(request)

    def ask_all(self, requests: Sequence[str], cycles: list[int] | None = None) -> list[Answer | Refused]:
        """The answers of several requests, which are sent before the first answer is read; a refusal in place of an answer.
        `cycles` gets the cycle of each answer.

        Ended: the program ended."""
        answers: list[Answer | Refused] = []
        for place in range(0, len(requests), MOST_AHEAD):
            part = requests[place : place + MOST_AHEAD]
            self.send(part)
            for request in part:
                try:
                    answers.append(self.read_answer(request))
                except Refused as why:
                    answers.append(why)
                if cycles is not None:
                    cycles.append(self.now)
        return answers

    def send(self, requests: Sequence[str]) -> None:
        """Sends requests, whose answers are read by `read_answer`, one for each."""
        self.requests.extend(requests)
        self.unread += len(requests)
        assert self.process.stdin
        try:
            self.process.stdin.write("".join(f"{it}\n" for it in requests).encode())
            self.process.stdin.flush()
        except BrokenPipeError:
            pass  # the answer says why

    def read_answer(self, request: str) -> Answer:
        """The next answer. `request` is named where it was refused."""
        assert self.process.stdout
        line = self.process.stdout.readline()
        words = line.decode("ascii", "replace").split()
        if not line.endswith(b"\n") or len(words) < 3 or words[0] not in ("ok", "no"):
            raise self.ended(line)
        self.now = int(words[1])
        if words[0] == "no":
            self.unread -= 1
            raise refused(request, int(words[2]), " ".join(words[3:]))
        count = int(words[2])
        block = b""
        if count:
            block = self.process.stdout.read(count + 1)
            if len(block) != count + 1:
                raise self.ended(block)
            block = block[:-1]
        self.unread -= 1
        return block, words[3:]

    def ended(self, line: bytes) -> Ended:
        """What is said where no answer came."""
        if line.strip():
            self.process.kill()
            return Ended(f"the program's answer is none of a live board: {line[:200]!r}")
        status = self.process.wait()
        assert self.process.stderr
        said = self.process.stderr.read().decode("utf-8", "replace").strip()
        if status == WORDS and not self.requests:
            return Ended(f"{said}: {self.words[0]} has no `serve`, or not these words: {' '.join(self.words[1:])}")
        return Ended(said or f"the live board's program ended with status {status}")

    # ---- one for each request

    def run(self, until: int, conditions: Sequence[str] = ()) -> Ran:
        """Runs up to cycle `until`, or to the first cycle after `now` in which a condition holds.

        Refused: `until` is not after `now`, or a condition is none."""
        sent, words = self.ask(" ".join(["run", str(until), *conditions]))
        return Ran(int(words[0]), sent)

    def set(self, part: str, value: int, cycle: int | None = None) -> None:
        """Gives a part a value in a cycle, which is `now` if none is named. The wires have it one cycle later."""
        self.ask(f"set {part} {value}" if cycle is None else f"{cycle}cy set {part} {value}")

    def level(self, name: str) -> str:
        """The level of a variable of the wave, such as uno.13: `0`, `1`, `z` or `x`."""
        return self.ask(f"level {name}")[1][0]

    def report(self) -> str:
        """The report (docs/REPORT.md)."""
        return self.ask("report")[0].decode("ascii", "replace")

    def omissions(self) -> str | None:
        """What the firmware asked for that is left out, a line for each thing; None where the program cannot say it."""
        try:
            return self.ask("omissions")[0].decode("ascii", "replace")
        except NotServed:
            return None

    def wave(self) -> int:
        """Writes what the wave's file still lacks; its length in bytes. Refused: it has no file."""
        return int(self.ask("wave")[1][0])

    def quit(self) -> None:
        """Ends the live board, also where its program has ended, or is still at an answer."""
        if self.unread:
            self.process.kill()
        try:
            self.ask("quit")
        except (ProgramError, Refused, ValueError):
            pass
        for stream in (self.process.stdin, self.process.stdout, self.process.stderr):
            if stream:
                try:
                    stream.close()
                except OSError:
                    pass
        try:
            self.process.wait(10)
        except subprocess.TimeoutExpired:
            self.process.kill()
            self.process.wait()

    def __enter__(self) -> LiveBoard:
        return self

    def __exit__(
        self, kind: type[BaseException] | None, fault: BaseException | None, trace: TracebackType | None
    ) -> None:
        self.quit()


def ahead(now: int, cycles: int) -> int:
    """The cycle so many cycles from now, one at least, or the end of a board's time."""
    return max(now + 1, min(LAST, now + cycles))
