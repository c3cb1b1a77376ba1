"""What can go wrong. What a test expected and did not get is an AssertionError; all else is not."""
from __future__ import annotations


class BoardError(AssertionError):
    """A test's expectation that did not come true."""


class TimeUp(BoardError):
    """What was waited for did not come in time."""


class LeftOut(BoardError):
    """The core halted, a trap ended a chip, or the firmware asked for something that is not simulated."""


class ProjectError(Exception):
    """No board can be made of a folder; the text has a line for each reason."""


class ProgramError(Exception):
    """There is no program to run, or it ended when it should not have."""


NOT_SERVED = 100
WHY = {
    7: "there was no memory for it",
    101: "it has other words than the request takes",
    102: "a number of it is none, or is too large",
    103: "the board has no pin of this name",
    104: "the board has no part of this name that takes it",
    105: "the part takes no value as large",
    106: "its time is over",
    107: "it is too long",
    108: "the wave has no file",
}


class Refused(Exception):
    """A request that the live board refused; nothing has happened."""

    def __init__(self, request: str, number: int, name: str) -> None:
        """`number` and `name` are those of the refusal, such as 103 and RequestPin."""
        why = WHY.get(number)
        super().__init__(f"{request!r} was refused with {number} {name}" + (f": {why}" if why else ""))
        self.request, self.number, self.name = request, number, name


class NotServed(Refused):
    """A request that the program's `serve` has not, or a condition of a run: docs/SERVE.md lists those that it has."""

    def __init__(self, request: str, number: int, name: str) -> None:
        what = " ".join(request.split()[:1])
        if what == "run":
            text = f"this program's `serve` has not all conditions of {request!r}"
        else:
            text = f"this program's `serve` has no request {what!r}"
        Exception.__init__(self, f"{text}: it answers with {number} {name} (docs/SERVE.md lists what it has)")
        self.request, self.number, self.name = request, number, name


def refused(request: str, number: int, name: str) -> Refused:
    """The exception for a refused request."""
    return (NotServed if number == NOT_SERVED else Refused)(request, number, name)
