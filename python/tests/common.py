"""What the tests of the package share: the program, its live board, compilers."""
from __future__ import annotations

import functools
import os
import shutil
import subprocess
import sys
import unittest

HERE = os.path.dirname(os.path.abspath(__file__))
PACKAGE = os.path.dirname(HERE)
TOP = os.path.dirname(PACKAGE)
sys.path.insert(0, PACKAGE)

from mudflatjar.program import program

EXAMPLES = os.path.join(TOP, "examples")
PYTEST = "/usr/bin/pytest-3"
"""Debian's, with Debian's Python."""
ARDUINO = "/usr/share/arduino/hardware/arduino/avr/cores/arduino"


@functools.cache
def serves() -> bool:
    """Whether the program has live boards."""
    words = [program(), "serve", os.path.join(EXAMPLES, "button")]
    ran = subprocess.run(words, input=b"quit\n", stdout=subprocess.PIPE, stderr=subprocess.DEVNULL, check=False)
    return ran.returncode == 0 and ran.stdout.startswith(b"ok 0 0 mudflatjar")


needs_serve = unittest.skipUnless(serves(), "skipped: this program has no serve")
needs_pytest = unittest.skipUnless(os.path.exists(PYTEST), "skipped: no pytest")
needs_gcc = unittest.skipUnless(shutil.which("avr-gcc"), "skipped: no avr-gcc")
needs_arduino = unittest.skipUnless(shutil.which("avr-g++") and os.path.isdir(ARDUINO), "skipped: no arduino-core-avr")


def environment() -> dict[str, str]:
    """The environment of a command that uses the package and the same program."""
    return dict(os.environ, PYTHONPATH=PACKAGE, PYTHONDONTWRITEBYTECODE="1")
