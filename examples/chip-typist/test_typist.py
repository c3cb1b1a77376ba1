#!/usr/bin/env python3
"""Tests of typist.py and of the chip on boards. PROGRAM is the program to try, target/mudflatjar if it is not set."""

import bisect
import json
import os
import re
import shutil
import subprocess
import sys
import tempfile
import unittest
from typing import Optional

sys.dont_write_bytecode = True
HERE = os.path.dirname(os.path.abspath(__file__))
sys.path.insert(0, HERE)
import typist

PROGRAM = os.environ.get("PROGRAM") or os.path.join(HERE, "..", "..", "target", "mudflatjar")
SCRIPT = os.path.join(HERE, "typist.py")
BIT = 16000000 // 115200 / 16  # us of a bit at 115,200 baud, in whole cycles


class Board:
    """The example in a folder of its own, with other attributes or another module."""

    def __init__(self, folder: str, attrs: dict, wasm: Optional[bytes] = None) -> None:
        self.folder = folder
        shutil.copytree(HERE, folder, dirs_exist_ok=True)
        with open(os.path.join(HERE, "diagram.json"), encoding="utf-8") as file:
            diagram = json.load(file)
        for part in diagram["parts"]:
            if part["type"] == "chip-typist":
                part["attrs"] = attrs
        with open(os.path.join(folder, "diagram.json"), "w", encoding="utf-8") as file:
            json.dump(diagram, file)
        if wasm:
            typist.write(os.path.join(folder, "typist.wasm"), wasm)

    def run(self, us: int, *words: str) -> bytes:
        """What the Uno sends in a run."""
        command = [PROGRAM, "run", self.folder, "--us", str(us), *words]
        return subprocess.run(command, stdout=subprocess.PIPE, check=True).stdout

    def report(self, us: int) -> str:
        """What the report says of the chip."""
        path = os.path.join(self.folder, "report.txt")
        self.run(us, "--report", path)
        with open(path, encoding="utf-8") as file:
            return re.search(r"^chip typist1 (.*)$", file.read(), re.M)[1]

    def sent(self, us: int, baud: float) -> list[tuple[int, int]]:
        """(microsecond of the start bit, byte) of each byte at TX, read in the middle of each bit."""
        path = os.path.join(self.folder, "wave.vcd")
        self.run(us, "--vcd", path)
        with open(path, encoding="utf-8") as file:
            text = file.read()
        code = re.search(r"^\$var .* (\S+) typist1\.TX \$end$", text, re.M)[1]
        times, values, now = [], [], 0.0
        for line in text.splitlines():
            if line.startswith("#"):
                now = int(line[1:]) / 10000
            elif line[1:] == code and line[0] in "01xz":
                times.append(now)
                values.append(line[0])

        def bit_at(time: float) -> bool:
            return values[bisect.bisect(times, time) - 1] == "1"

        out, free, bit = [], 0.0, 1000000 / baud
        for at, value in zip(times, values):
            if value == "0" and at >= free:
                out.append((int(at), sum(bit_at(at + (k + 1.5) * bit) << k for k in range(8))))
                free = at + 9.5 * bit
        return out


class Words(unittest.TestCase):
    def test_attributes_of_the_example(self) -> None:
        with open(os.path.join(HERE, "diagram.json"), encoding="utf-8") as file:
            parts = json.load(file)["parts"]
        drawn = next(part["attrs"] for part in parts if part["type"] == "chip-typist")
        pieces = [(50000, b"on\n"), (100000, b"off\n"), (150000, b"hello\n")]
        self.assertEqual({"baud": "9600", **typist.attributes(pieces)}, drawn)

    def test_escapes(self) -> None:
        self.assertEqual(typist.unescaped(r"a\n\r\t\0\\\x00\xfF" + "\u00e4"), b"a\n\r\t\0\\\0\xff\xc3\xa4")
        for text in ("a\\", "\\q", "\\x4", "\\xg0"):
            with self.subTest(text), self.assertRaises(typist.Words):
                typist.unescaped(text)

    def test_times(self) -> None:
        times = {"0": 0, "7": 7, "7us": 7, "20ms": 20000, "1.5s": 1500000, "0.000001s": 1, "4294967294": 4294967294}
        self.assertEqual([typist.microseconds(text) for text in times], list(times.values()))
        for text in ("", "ms", "-1", "1.5", "0.0001ms", "1 s", "1h", "4294967295", "5000s"):
            with self.subTest(text), self.assertRaises(typist.Words):
                typist.microseconds(text)

    def test_words_of_the_command(self) -> None:
        for words in (
            [],
            ["-o"],
            ["-o", "a.wat", "1", "a"],
            ["-o", "a.wasm"],
            ["--attrs", "1"],
            ["--attrs", "x", "a"],
        ):
            with self.subTest(words):
                ended = subprocess.run([sys.executable, SCRIPT, *words], capture_output=True)
                self.assertEqual((ended.returncode, ended.stdout, ended.stderr[:10]), (2, b"", b"typist.py:"))

    def test_limits(self) -> None:
        for work in (
            lambda: typist.attributes([(1, b"x" * 183)]),
            lambda: typist.module([(10, b"y" * (typist.ROOM - 15))]),
            lambda: typist.module([(1, b"a")], b"\0asm\1\0\0\0\2\1\0\7\1\0\12\1\0\13\1\0"),
        ):
            self.assertRaises(typist.Words, work)


class Boards(unittest.TestCase):
    def setUp(self) -> None:
        room = tempfile.TemporaryDirectory()
        self.addCleanup(room.cleanup)
        self.folder = room.name

    def test_texts_in_the_module(self) -> None:
        board = Board(self.folder, {"at1": "1", "text1.1": "065"})
        words = [
            "-o",
            os.path.join(self.folder, "typist.wasm"),
            "50ms",
            r"on\n",
            "0.1s",
            r"off\n",
            "150000",
            r"hello\n",
        ]
        subprocess.run([sys.executable, SCRIPT, *words], check=True)
        with open(os.path.join(HERE, "expected", "serial.txt"), "rb") as file:
            self.assertEqual(board.run(200000), file.read())

    def test_every_byte_from_the_module(self) -> None:
        every = [(0, bytes(range(256))), (5000, b""), (5000, b"\0\0\0\0"), (40000, b"\xff")]
        times = [k * 10 * BIT for k in range(260)] + [40000]
        expected = list(zip([int(1 / 16 + time) for time in times], b"".join(data for _, data in every)))
        board = Board(self.folder, {"baud": "115200"}, typist.module(every))
        self.assertEqual(board.sent(41000, 1000000 / BIT), expected)

    def test_every_byte_from_attributes(self) -> None:
        for part in (range(0, 128), range(128, 256)):
            some = [(20000, bytes(part)), (20000, b"\0\0\0\0"), (40000, b"\xff")]
            board = Board(self.folder, {"baud": "115200", **typist.attributes(some)})
            bytes_sent = enumerate(some[0][1] + some[1][1])
            expected = [(20000 + int(1 / 16 + k * 10 * BIT), byte) for k, byte in bytes_sent]
            self.assertEqual(board.sent(41000, 1000000 / BIT), expected + [(40000, 255)])

    def test_without_a_text_nothing_is_sent(self) -> None:
        self.assertEqual(Board(self.folder, {}).sent(20000, 9600), [])
        self.assertEqual(Board(self.folder, {"at1": "100"}).sent(20000, 9600), [])

    def test_the_longest_texts(self) -> None:
        full = Board(self.folder, typist.attributes([(1, b"x" * 182)]))
        self.assertEqual((len(full.sent(200000, 9600)), full.report(10)), (182, "alive"))
        large = b"y" * (typist.ROOM - 16)
        board = Board(self.folder, {"baud": "2000000"}, typist.module([(10, large)]))
        self.assertEqual(bytes(byte for _, byte in board.sent(200000, 2000000)), large)

    def test_what_a_chip_is_ended_for(self) -> None:
        long = {"at1": "1", **{f"text1.{m}": "120120120" for m in range(1, 63)}}
        self.assertEqual(Board(self.folder, long).report(10), "trap 13 at 0")
        for codes in ("257", "1000000000", "065999"):
            with self.subTest(codes):
                self.assertEqual(Board(self.folder, {"at1": "1", "text1.1": codes}).report(10), "trap 1 at 0")


if __name__ == "__main__":
    unittest.main()
