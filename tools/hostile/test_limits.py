#!/usr/bin/env python3
"""What is as large as it may be, made by limits.py and run by the built program: a board of 1,039 pins and 512 connections, whose
wave and displays are compared with tools/peers' second readings; a firmware that fills the flash; each file of a project at its
longest, and one byte or one line above it; eight chips of 64 pages each; a chip that fills its console and its display. And what
limits.py makes is what it says.

PROGRAM is the program to try, target/mudflatjar if it is not set. `test_limits.py Limits.test_pins` tries one thing."""

import os
import pathlib
import shutil
import subprocess
import sys
import tempfile
import unittest
from typing import Mapping, Optional, Union

sys.dont_write_bytecode = True
sys.path.insert(0, str(pathlib.Path(__file__).resolve().parent))
import limits


class Made(unittest.TestCase):
    """What limits.py makes."""

    def test_instructions(self) -> None:
        self.assertEqual(limits.jmp(0x3FF0), [0x940C, 0x3FF0])
        self.assertEqual([limits.ldi(16, 0xFF), limits.ldi(18, 0x4D)], [[0xEF0F], [0xE42D]])
        self.assertEqual([limits.out(0x0A, 16), limits.out(0x05, 17)], [[0xB90A], [0xB915]])
        self.assertEqual([limits.add(17, 18), limits.rjmp(-5)], [[0x0F12], [0xCFFB]])

    def test_hex(self) -> None:
        self.assertEqual(limits.hex_text(bytes([1, 2, 0xFF]), 2), ":020000000102FB\n:01000200FFFE\n:00000001FF\n")

    def test_files_of_a_row(self) -> None:
        data = limits.TOP / "crates/sim_rows/data"
        self.assertEqual((data / "full-flash.hex").read_text(), limits.hex_text(limits.image(limits.COUNTS)))
        self.assertEqual((data / "full-flash.vcd").read_text(), limits.counted(320))

    def test_numbers_of_a_module(self) -> None:
        for number, text in [(0, b"\0"), (127, b"\x7f"), (128, b"\x80\x01"), (1_048_576, b"\x80\x80\x40")]:
            self.assertEqual(limits.leb(number), text)
        for number, text in [(63, b"\x3f"), (64, b"\xc0\0"), (-1, b"\x7f"), (-65, b"\xbf\x7f")]:
            self.assertEqual(limits.leb(number, signed=True), text)

    def test_a_wave_worked_out(self) -> None:
        end = "#3125\n0!\n0\"\n0#\n0$\n0%\n0&\n0'\n0(\n#3750\n0)\n0*\n0+\n0,\n0-\n0.\n#5625\n1!\n#6250\n1)\n1+\n1,\n#9375\n0!\n1\"\n1#\n1$\n1'\n#10000\n"
        self.assertTrue(limits.counted(16).endswith("\n" + end))


class Run(unittest.TestCase):
    """Projects in a folder, and runs of the program there."""

    def setUp(self) -> None:
        room = tempfile.TemporaryDirectory()
        self.addCleanup(room.cleanup)
        self.room = pathlib.Path(room.name)
        self.program = pathlib.Path(os.environ.get("PROGRAM") or limits.TOP / "target/mudflatjar").resolve()
        self.assertTrue(os.access(self.program, os.X_OK), f"there is no program {self.program}")

    def made(self, name: str, files: Mapping[str, Union[str, bytes]]) -> pathlib.Path:
        """A folder with these files."""
        folder = self.room / name
        folder.mkdir()
        for file, content in files.items():
            (folder / file).write_bytes(content if isinstance(content, bytes) else content.encode())
        return folder

    def project(self, name: str, diagram: str, module: Optional[bytes] = None, pins: str = limits.PINS) -> pathlib.Path:
        """A project with the firmware COUNTS, and with a chip if there is a module."""
        firmware = limits.hex_text(limits.image(limits.COUNTS))
        toml = "[wokwi]\nversion = 1\nfirmware = 'f.hex'\n"
        files: dict[str, Union[str, bytes]] = {"wokwi.toml": toml, "f.hex": firmware, "diagram.json": diagram}
        if module:
            files |= {
                "wokwi.toml": toml + "[[chip]]\nname = 'c'\nbinary = 'c.wasm'\n",
                "c.wasm": module,
                "c.json": pins,
            }
        return self.made(name, files)

    def run_with(self, *words: str) -> tuple[int, str, str]:
        """Status, standard output and standard error of the program with these words."""
        ended = subprocess.run([self.program, *words], cwd=self.room, capture_output=True, timeout=120)
        return ended.returncode, ended.stdout.decode(), ended.stderr.decode()

    def texts(self, folder: pathlib.Path, us: int, *words: str) -> tuple[str, str]:
        """Wave and report of a run, which has to end with 0, without a word."""
        ended = self.run_with("run", folder.name, "--us", str(us), "--vcd", "w", "--report", "r", *words)
        self.assertEqual(ended, (0, "", ""))
        return (self.room / "w").read_text(), (self.room / "r").read_text()

    def refused(self, complaint: str, *words: str) -> None:
        """The program with these words ends with 3, and its line begins so."""
        status, out, said = self.run_with(*words)
        self.assertEqual((status, out, said[: len(complaint)]), (3, "", complaint))


class Limits(Run):
    def test_jmp(self) -> None:
        self.made("jmp", {"f.hex": limits.hex_text(limits.image(limits.COUNTS))})
        self.assertEqual(self.run_with("bare", "jmp/f.hex", "--us", "20"), (0, limits.counted(320), ""))

    def pins(self) -> pathlib.Path:
        """A project of 64 parts with 1,039 pins, and 512 connections."""
        parts, connections = [{"type": "wokwi-arduino-uno", "id": "uno"}], []
        for i in range(63):
            if i % 2:
                parts.append({"type": "wokwi-74hc595", "id": f"p{i}"})
                data = f"p{i - 2}:Q7S" if i > 1 else "uno:11"
                wires = {"DS": data, "SHCP": "uno:13", "STCP": "uno:10", "MR": "uno:12", "OE": "uno:2"}
            else:
                parts.append({"type": "wokwi-lcd1602", "id": f"p{i}"})
                numbers = {"RS": 8, "RW": 9, "E": 10, "D4": 4, "D5": 5, "D6": 6, "D7": 7}
                numbers |= {"D0": 0, "D1": 1, "D2": 2, "D3": 3}
                wires = {pin: f"uno:{number}" for pin, number in numbers.items()}
            connections += [[f"p{i}:{pin}", end] for pin, end in wires.items()]
        connections += [["uno:13", f"p{1 + 2 * (i % 31)}:SHCP"] for i in range(512 - len(connections))]
        return self.project("pins", limits.board(parts, connections))

    def test_pins(self) -> None:
        wave, report = self.texts(self.pins(), 40)
        # the Uno's supplies and grounds have no variable
        self.assertEqual(wave.count("$var "), 1028)
        self.assertEqual(len(report.splitlines()), 2 + 2 * 32 + 31)

    @unittest.skipUnless(shutil.which("cc"), "no compiler for C")
    def test_pins_on_the_second_reading(self) -> None:
        folder = self.pins()
        wave, report = self.texts(folder, 40)
        for name in ("uno", "board"):
            subprocess.run(["cc", "-O2", "-o", self.room / name, limits.TOP / f"tools/peers/{name}.c"], check=True)
        pins = subprocess.run([self.room / "uno", folder / "f.hex", "640"], stdout=subprocess.PIPE, check=True).stdout
        (self.room / "pins.vcd").write_bytes(pins)
        words = [str(self.room / "board"), str(folder / "diagram.json"), "640", "uno=pins.vcd", "report=parts"]
        second = subprocess.run(words, cwd=self.room, stdout=subprocess.PIPE, check=True, text=True).stdout
        self.assertTrue(second == wave, "another wave")
        lines = [line for line in report.splitlines() if not line.startswith(("cycles ", "uno "))]
        self.assertEqual((self.room / "parts").read_text().splitlines(), lines)

    def test_files(self) -> None:
        small = self.project("small", limits.with_chips(2), limits.NAMED)
        custom = limits.LONGEST - len(limits.NAMED)
        while len(module := limits.chip(1, limits.drives_high(16), {16: b"OUT\0"}, custom)) > limits.LONGEST:
            custom -= 1
        fillers = {"f.hex": b"\n", "wokwi.toml": b"#", "diagram.json": b" ", "c.json": b" "}
        files = {file.name: file.read_bytes() for file in small.iterdir()}
        longest = {name: files[name].ljust(limits.LONGEST, filler) for name, filler in fillers.items()}
        longest["c.wasm"] = module
        self.assertEqual({len(it) for it in longest.values()}, {limits.LONGEST})
        self.assertEqual(longest.keys(), files.keys())
        usual = self.texts(small, 20)
        self.assertTrue(self.texts(self.made("longest", longest), 20) == usual)
        for name in longest:
            with self.subTest(name):
                folder = self.made(f"past-{name}", files | {name: longest[name] + b"\n"})
                self.refused(f"{folder.name}/{name}: refused 10 FileTooLong\n", "check", folder.name)

    def test_lines_of_a_script(self) -> None:
        parts = [{"type": "wokwi-arduino-uno", "id": "uno"}, {"type": "wokwi-slide-switch", "id": "s"}]
        wires = [["s:2", "uno:A0"], ["s:1", "uno:0"], ["s:3", "uno:1"]]
        folder = self.project("lines", limits.board(parts, wires))
        acts = "".join(f"{i // 16}us set s {i % 2}\n" for i in range(4096))
        (self.room / "acts").write_text(acts)
        (self.room / "long").write_text(acts.ljust(limits.LONGEST, "#"))
        (self.room / "more").write_text(acts + "300us set s 0\n")
        (self.room / "past").write_text(acts.ljust(limits.LONGEST + 1, "#"))
        usual = self.texts(folder, 300, "--script", "acts")
        self.assertEqual(usual[1].splitlines()[2], "input s 1")
        self.assertTrue(self.texts(folder, 300, "--script", "long") == usual)
        self.refused("more: refused 82 ScriptLimit line 4097\n", "run", "lines", "--us", "1", "--script", "more")
        self.refused("past: refused 10 FileTooLong\n", "run", "lines", "--us", "1", "--script", "past")

    def test_parts_and_connections(self) -> None:
        uno = [{"type": "wokwi-arduino-uno", "id": "uno"}]
        many = uno + [{"type": "wokwi-led", "id": f"l{i}"} for i in range(64)]
        self.project("wires", limits.board(uno, [["uno:0", "uno:1"]] * 513))
        self.project("parts", limits.board(many, []))
        for name in ("wires", "parts"):
            with self.subTest(name):
                self.refused(f"{name}/diagram.json: refused 48 DiagramLimit\n", "check", name)

    def test_chips(self) -> None:
        last, const = 64 * 65536, limits.const
        # from the start, and by growth: both write the last word, read it, and ask for a pin by a name at the end
        stores = const(last - 8) + const(-559038737) + b"\x36\x02\x00"
        stores += const(last - 8) + b"\x28\x02\x00" + const(-559038737) + b"\x47\x04\x40\x00\x0b"
        grows = const(63) + b"\x40\x00" + const(1) + b"\x47\x04\x40\x00\x0b"
        modules = {
            "start": limits.chip(64, stores + limits.drives_high(last - 4), {last - 4: b"OUT\0"}),
            "growth": limits.chip(1, grows + stores + limits.drives_high(16), {16: b"OUT\0"}),
        }
        for name, module in modules.items():
            with self.subTest(name):
                wave, report = self.texts(self.project(name, limits.with_chips(8), module), 20)
                alive = [it for it in report.splitlines() if it.startswith("chip")]
                self.assertEqual(alive, [f"chip c{i} alive" for i in range(8)])
                codes = {line.split()[4]: line.split()[3] for line in wave.splitlines() if line.startswith("$var")}
                for i in range(8):
                    self.assertIn(f"\n1{codes[f'c{i}.OUT']}\n", wave)

    def test_more_chips_and_pages(self) -> None:
        self.project("nine", limits.with_chips(9), limits.NAMED)
        self.refused("nine/diagram.json: refused 49 BoardLimit", "check", "nine")
        self.made("pages", {"c.wasm": limits.chip(65, b"", {})})
        self.refused("pages/c.wasm: refused 79 ValidLimit", "module", "pages/c.wasm")

    def test_shown(self) -> None:
        pins = '{"name": "c", "pins": [], "display": {"width": 256, "height": 256}}\n'
        _, report = self.texts(self.project("shown", limits.with_chips(2), limits.fills_both(), pins), 20)
        expected = []
        for name in ("c0", "c1"):
            expected += [f"chip {name} alive", f"chip {name} | " + "x" * 65536]
            expected += [f"chip {name} row {y} " + "A5" * 1024 for y in range(256)]
        lines = [line for line in report.splitlines() if line.startswith("chip")]
        self.assertTrue(lines == expected, [line[:60] for line in lines])

    def test_wave(self) -> None:
        self.texts(self.project("wave", limits.with_chips(1), limits.NAMED), 20)
        (self.room / "past.vcd").write_bytes(bytes(limits.LONGEST_WAVE + 1))
        self.refused("past.vcd: refused 10 FileTooLong\n", "replay", "wave", "past.vcd", "--us", "20")


if __name__ == "__main__":
    unittest.main()
