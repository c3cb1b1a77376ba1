"""Which program runs the boards: the one that is named, that of the wheel, or that of the checkout."""
from __future__ import annotations

import os
import platform
import shutil
import sys

from .faults import ProgramError

HERE = os.path.dirname(os.path.abspath(__file__))
TOP = os.path.normpath(os.path.join(HERE, "..", ".."))


def places() -> list[str]:
    """The folders that may have a program: of the wheel, then of the checkout, the one that was built there first."""
    return [os.path.join(HERE, "bin"), os.path.join(TOP, "target"), os.path.join(TOP, "dist")]


def runs_here() -> bool:
    """Whether this system runs the program, which is for Linux on x86-64."""
    return sys.platform == "linux" and platform.machine() in ("x86_64", "AMD64")


def program(named: str | None = None) -> str:
    """The path of the program: `named`, else what MUDFLATJAR or PROGRAM in the environment names, else the program beside this
    package or in its checkout, else `mudflatjar` on the path.

    ProgramError: there is none."""
    for path in (named, os.environ.get("MUDFLATJAR"), os.environ.get("PROGRAM")):
        if path:
            return path
    if runs_here():
        for place in places():
            path = os.path.join(place, "mudflatjar")
            if os.access(path, os.X_OK) and os.path.isfile(path):
                return path
    found = shutil.which("mudflatjar")
    if not found:
        why = "" if runs_here() else ": that of the release is for Linux on x86-64"
        raise ProgramError(
            f"there is no program to run boards with{why}; the environment variable MUDFLATJAR names another one"
        )
    return found
