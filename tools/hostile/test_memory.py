#!/usr/bin/env python3
"""The built program whose requests for memory are refused, and programs in its place that do not answer this as they must, which
are found.

PROGRAM is the program to try, target/mudflatjar if it is not set. Of each command some sixty requests are refused, with ALL=1
each of them. `test_memory.py Program.test_run_chip` tries one command."""

import os
import pathlib
import shutil
import subprocess
import sys
import tempfile
import unittest

sys.dont_write_bytecode = True
sys.path.insert(0, str(pathlib.Path(__file__).resolve().parent))
import memory

# asks for memory three times, writes its wave, and answers; MISTAKE is what it does first if a request is refused
PROGRAM = r"""
#include <fcntl.h>
#include <stdlib.h>
#include <unistd.h>
static int wave(void) {
    int file = open("wave.vcd", O_WRONLY | O_CREAT | O_TRUNC, 0666);
    return file < 0 || write(file, "wave\n", 5) != 5 || close(file);
}
int main(void) {
    char *volatile a = malloc(10), *volatile b = a ? realloc(a, 20) : NULL, *volatile c = b ? calloc(1, 5) : NULL;
    if (!c) { MISTAKE; return write(2, "out of memory\n", 14) == 14 ? 7 : 1; }
    return wave() || write(1, "accepted\n", 9) != 9;
}
"""


@unittest.skipUnless(shutil.which("cc"), "no compiler for C")
class WithHeap(unittest.TestCase):
    """A folder with the library that refuses."""

    def setUp(self) -> None:
        room = tempfile.TemporaryDirectory()
        self.addCleanup(room.cleanup)
        self.room = pathlib.Path(room.name)
        self.library = memory.refusing_heap(self.room)


class Mistakes(WithHeap):
    """Of programs in the simulator's place."""

    def tried(self, mistake: str) -> memory.Tried:
        (self.room / "p.c").write_text(PROGRAM.replace("MISTAKE", mistake))
        subprocess.run(["cc", "-o", self.room / "p", self.room / "p.c"], check=True)
        shutil.rmtree(self.room / "check", ignore_errors=True)
        return memory.Case("check", self.room, self.library, self.room / "p").tried(True)

    def test_refused_as_it_must_be(self) -> None:
        self.assertEqual(self.tried(""), (3, 3, []))

    def test_mistakes_are_found(self) -> None:
        for mistake, said in [
            ("return 0", "status 0"),
            ("abort()", "status -6"),
            ('if (write(1, "x", 1)) return 7', "1 bytes on standard output"),
            ("if (wave()) return 1", "changed wave.vcd"),
        ]:
            with self.subTest(mistake):
                tried = self.tried(mistake)
                self.assertEqual((tried.requests, tried.refused), (3, 3))
                self.assertTrue(any(said in line for line in tried.wrong), tried.wrong)


class Program(WithHeap):
    """The built program: a test for each of the commands."""

    def setUp(self) -> None:
        super().setUp()
        self.program = pathlib.Path(os.environ.get("PROGRAM") or memory.TOP / "target/mudflatjar").resolve()
        self.assertTrue(os.access(self.program, os.X_OK), f"there is no program {self.program}")

    def refuses(self, name: str) -> None:
        tried = memory.Case(name, self.room, self.library, self.program).tried(bool(os.environ.get("ALL")))
        print(f"{name}: {tried.requests} requests, {tried.refused} refused one at a time", flush=True)
        self.assertEqual(tried.wrong[:20], [])


for case in memory.CASES:
    setattr(Program, "test_" + case.replace("-", "_"), lambda self, name=case: self.refuses(name))


if __name__ == "__main__":
    unittest.main()
