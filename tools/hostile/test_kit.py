#!/usr/bin/env python3
"""Tests of kit.py, with a stand-in for the toolchain: what a command does otherwise than it must is found."""

import os
import pathlib
import subprocess
import sys
import tempfile
import unittest

sys.dont_write_bytecode = True
sys.path.insert(0, str(pathlib.Path(__file__).resolve().parent))
import kit

# in the place of rt: each case whose name is at least as long as the number is refused, the others are run; MISTAKE comes first
RT = r"""#!/bin/sh
n=$3
while [ $# -gt 2 ]; do shift; done
for args in "$2"/*.args; do
    name=$(basename "$args" .args) status=7
    MISTAKE
    echo "== $name"
    echo "allocations: 9" >&2
    if [ ${#name} -ge "$n" ]; then echo "out of memory" >&2; else
        "$PROGRAM" $(cat "$args"); status=$?
    fi
    echo "case=$name run=ended status=$status runners=1 proved=no" >&2
done
"""
ECHO = "#!/bin/sh\necho $*\n[ $1 != check ]\n"


class Kit(unittest.TestCase):
    def setUp(self) -> None:
        room = tempfile.TemporaryDirectory()
        self.addCleanup(room.cleanup)
        self.room = pathlib.Path(room.name)

    def tried(self, mistake: str, *numbers: str) -> tuple[int, str]:
        """Status and standard output of kit.py."""
        for name, text in (("rt", RT.replace("MISTAKE", mistake)), ("program", ECHO)):
            (self.room / name).write_text(text)
            (self.room / name).chmod(0o755)
        named = {"PROGRAM": str(self.room / "program"), "PATH": f"{self.room}:{os.environ['PATH']}"}
        words = [sys.executable, "-B", kit.__file__, *numbers]
        ended = subprocess.run(words, env=os.environ | named, capture_output=True, text=True)
        return ended.returncode, ended.stdout

    def test_refused_as_it_must_be(self) -> None:
        told = (
            "kit: request 1 is refused to 9 of 9 commands: bare run replay twin make check check-missing module decode\n"
            "kit: request 6 is refused to 4 of 9 commands: replay check-missing module decode\n"
        )
        self.assertEqual(self.tried("", "1", "6"), (0, told))

    def test_mistakes_are_found(self) -> None:
        for mistake in [
            "echo x",
            "[ $name = make ] && status=0",
            "[ $name = twin ] && echo fault >&2",
            "[ $name = run ] && continue",
            "name=a-longer-one",
        ]:
            with self.subTest(mistake):
                self.assertEqual(self.tried(mistake, "1")[0], 1)
        # no command makes so many requests; another answer than the program's
        self.assertEqual(self.tried("", "100")[0], 1)
        self.assertEqual(self.tried("[ $name = run ] && echo x", "6")[0], 1)


if __name__ == "__main__":
    unittest.main()
