"""Which program the tools run: the one that is named, or the one of this repository."""
import os
import shutil
import sys

ROOT = os.path.normpath(os.path.join(os.path.dirname(os.path.abspath(__file__)), "..", ".."))


def program_path(named=None):
    """MUDFLATJAR or PROGRAM in the environment, else target/mudflatjar, dist/mudflatjar, or `mudflatjar` on the path."""
    for path in (named, os.environ.get("MUDFLATJAR"), os.environ.get("PROGRAM")):
        if path:
            return path
    for path in ("target/mudflatjar", "dist/mudflatjar"):
        if os.access(os.path.join(ROOT, path), os.X_OK):
            return os.path.join(ROOT, path)
    found = shutil.which("mudflatjar")
    if not found:
        sys.exit("there is no program: build it (./mudflatjar does), or name it with --program or in MUDFLATJAR")
    return found
