"""Tests of the pytest plugin: pytest runs small files of tests, some of which must fail."""
import os
import re
import subprocess
import tempfile
import textwrap
import unittest
import xml.etree.ElementTree

import common
from common import EXAMPLES, PYTEST, needs_pytest, needs_serve

BUTTON = os.path.join(EXAMPLES, "button")


def has(module):
    """Whether Debian's Python has a module."""
    return (
        subprocess.run(
            ["/usr/bin/python3", "-c", f"import {module}"], stderr=subprocess.DEVNULL, check=False
        ).returncode
        == 0
    )


def hex_of(words):
    """The Intel HEX text of words from address 0 on."""
    data = b"".join(word.to_bytes(2, "little") for word in words)
    line = bytes([len(data), 0, 0, 0]) + data
    return f":{line.hex().upper()}{-sum(line) & 255:02X}\n:00000001FF\n"


TESTS = f"""
    import pytest
    from mudflatjar import TimeUp, high

    pytestmark = pytest.mark.board({BUTTON!r})

    def test_passes(board):
        board.run(ms=10)
        board.press("btn1")
        board.until(high("uno:13"), timeout_us=1_000)

    def test_fails(board):
        board.run(ms=10)
        board.press("btn1")
        board.until(high("uno:12"), timeout_us=1_000)

    @pytest.mark.board(firmware="halts.hex")
    def test_halts(board):
        board.run(ms=1)

    @pytest.mark.board(firmware="halts.hex", allow=["halt"])
    def test_may_halt(board):
        board.run(ms=1)

    @pytest.mark.xfail(reason="its core halts")
    @pytest.mark.board(firmware="halts.hex")
    def test_is_known_to_halt(board):
        board.run(ms=1)

    @pytest.mark.board({os.path.join(EXAMPLES, "serial-hello")!r})
    def test_by_the_names_of_pytest_embedded(dut):
        assert dut.expect(r"hello (\\d)", timeout=0.05)[1] == b"0"
        dut.expect_exact(["nothing", "\\r\\n"], timeout=0.05)
        dut.write("x")
        with pytest.raises(TimeUp):
            dut.expect(["a.c", b"d"], timeout=0.02)

    def test_that_needs_no_board():
        pass
    """


@needs_serve
@needs_pytest
class Plugin(unittest.TestCase):
    def setUp(self):
        box = tempfile.TemporaryDirectory()
        self.addCleanup(box.cleanup)
        self.folder = os.path.join(box.name, "tests")
        self.other = os.path.join(box.name, "other")
        os.mkdir(self.folder)
        os.mkdir(self.other)
        self.write("halts.hex", hex_of([0xFFFF]))
        self.write("test_it.py", textwrap.dedent(TESTS))
        self.write("pytest.ini", "[pytest]\n")

    def write(self, name, text):
        with open(os.path.join(self.folder, name), "w", encoding="utf-8") as file:
            file.write(text)

    def pytest(self, *words, **more):
        environment = dict(common.environment(), **more)
        words = [PYTEST, "-p", "no:cacheprovider", "-rA", *words]
        ran = subprocess.run(
            words,
            cwd=self.folder,
            env=environment,
            stdout=subprocess.PIPE,
            stderr=subprocess.STDOUT,
            text=True,
            check=False,
        )
        return ran.stdout

    def verdicts(self, said):
        return {name: verdict for verdict, name in re.findall(r"(?m)^(PASSED|FAILED|XFAIL|ERROR) \S*::(\w+)", said)}

    EXPECTED = {
        "test_passes": "PASSED",
        "test_fails": "FAILED",
        "test_halts": "FAILED",
        "test_may_halt": "PASSED",
        "test_is_known_to_halt": "XFAIL",
        "test_by_the_names_of_pytest_embedded": "PASSED",
        "test_that_needs_no_board": "PASSED",
    }

    def test_verdicts_and_what_a_failure_says(self):
        said = self.pytest("--board-keep", "kept")
        self.assertEqual(self.verdicts(said), self.EXPECTED, said)
        self.assertIn("from 10 ms to 11 ms there was no cycle in which uno:12 is 1", said)
        self.assertIn(
            "the test passed, but not all of the board ran:\nuno: the core halted at word address 0x0000", said
        )
        for text in (
            "time: 11 ms (cycle 176000)",
            "input btn1 1",
            "         10 ms  set btn1 1",
            "mudflatjar look project --us 11000 --script",
        ):
            self.assertIn(text, said)
        kept = os.path.join(self.folder, "kept")
        self.assertEqual(
            sorted(os.listdir(kept)),
            ["test_it.py-test_fails", "test_it.py-test_halts"],
        )
        names = ["again.txt", "project", "report.txt", "requests.txt", "script.txt", "serial.txt", "wave.vcd"]
        self.assertEqual(sorted(os.listdir(os.path.join(kept, "test_it.py-test_fails"))), names)
        with open(os.path.join(kept, "test_it.py-test_fails", "script.txt"), encoding="utf-8") as file:
            self.assertEqual(file.read(), "160000cy set btn1 1\n")

    def test_the_option_with_and_without_a_sign(self):
        for words in (["--board-keep=kept"], ["--board-keep", "kept"], ["--board-keep", "kept", "test_it.py"]):
            said = self.pytest("-k", "test_fails", *words)  # the second time the folder is there already
            self.assertIn(f"kept in {self.folder}/kept/test_it.py-test_fails;", said, words)
        self.assertIn(
            f"kept in {self.other}/test_it.py-test_fails;",
            self.pytest("-k", "test_fails", f"--board-keep={self.other}"),
        )
        said = self.pytest("-k", "test_fails", "--board-keep", self.other)
        self.assertIn(f"write --board-keep={self.other}", said)
        self.assertNotIn("kept in", said)

    def test_the_key_of_the_ini_file(self):
        self.write("pytest.ini", "[pytest]\nboard_keep = build/failed\n")
        said = self.pytest("-k", "test_fails")
        self.assertIn(f"kept in {self.folder}/build/failed/test_it.py-test_fails;", said)

    def test_without_the_entry_point_the_plugin_is_named(self):
        said = self.pytest("-p", "mudflatjar.pytest_plugin", "-k", "test_passes", PYTEST_DISABLE_PLUGIN_AUTOLOAD="1")
        self.assertEqual(self.verdicts(said), {"test_passes": "PASSED"}, said)

    def test_what_ci_reads(self):
        self.pytest("--junitxml=out.xml")
        suite = xml.etree.ElementTree.parse(os.path.join(self.folder, "out.xml")).getroot()[0]
        self.assertEqual(
            (suite.get("tests"), suite.get("failures"), suite.get("errors"), suite.get("skipped")), ("7", "2", "0", "1")
        )

    def test_side_by_side(self):
        if not has("xdist"):
            self.skipTest("skipped: no pytest-xdist")
        said = self.pytest("-n", "2")
        self.assertEqual(self.verdicts(said), self.EXPECTED, said)
        self.assertIn("time: 11 ms (cycle 176000)", said)

    def test_a_project_that_is_none_is_an_error_with_its_reason(self):
        self.write("test_it.py", "import pytest\n@pytest.mark.board('nowhere')\ndef test_it(board): pass\n")
        said = self.pytest()
        self.assertIn("ProjectError", said)
        self.assertIn("nowhere", said)


if __name__ == "__main__":
    unittest.main()
