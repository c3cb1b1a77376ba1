"""Tests of an Arduino Uno's firmware on a simulated board: docs/PYTHON.md has the first one, and all names."""
from .board import Board
from .conditions import Condition, becomes, edge, high, low, sent
from .faults import BoardError, LeftOut, NotServed, ProgramError, ProjectError, Refused, TimeUp
from .live import LiveBoard
from .pin import Pin
from .report import Report
from .serial import Serial

__all__ = [
    "Board",
    "BoardError",
    "Condition",
    "LeftOut",
    "LiveBoard",
    "NotServed",
    "Pin",
    "ProgramError",
    "ProjectError",
    "Refused",
    "Report",
    "Serial",
    "TimeUp",
    "becomes",
    "edge",
    "high",
    "low",
    "sent",
]
