#!/usr/bin/env python3
"""Tests of the script's parts: what is wrong with words, what the pages' tables say, and the sentences about a run."""
import io
import os
import pathlib
import re
import signal
import subprocess
import sys
import tempfile
import time
import unittest
from unittest import mock

sys.path.insert(0, str(pathlib.Path(__file__).resolve().parent))
import build
import checks
import manual
import pages
import run
import tell
import tool
import words

ROOT = pathlib.Path(__file__).resolve().parents[2]


class Words(unittest.TestCase):
    def test_a_time_becomes_microseconds(self):
        table = {"200ms": 200_000, "5s": 5_000_000, "1.5ms": 1_500, "30us": 30, "0.000001s": 1, "1.0005ms": None, "5": None, "5 s": None, "ms": None, "-5s": None, "5min": None}
        for text, exact in table.items():
            self.assertEqual(words.micros(text), exact, text)

    def test_only_the_value_of_us_changes(self):
        table = [
            ("run x --us 5s", "run x --us 5000000"),
            ("run --us=200ms x", "run --us=200000 x"),
            ("run 5s --us 5", "run 5s --us 5"),
            ("run x --vcd 5s --us 1ms", "run x --vcd 5s --us 1000"),
            ("run --us 5 -- --us 5s", "run --us 5 -- --us 5s"),
            ("run x --us", "run x --us"),
            ("run x --us 5min", "run x --us 5min"),
        ]
        for given, told in table:
            self.assertEqual(words.with_micros(given.split()), told.split(), given)

    def test_the_wrong_word_is_named(self):
        table = [
            ("rnu x", "there is no command rnu; is it run?"),
            ("run", "--us is missing"),
            ("run --us 5", "FOLDER is missing"),
            ("run x --us 5 y", "y is one word too many"),
            ("run x --us 5 --vdc w", "--vdc is no option of run; is it --vcd?"),
            ("run x --us 5 --us 6", "--us is given 2 times"),
            ("run x --us 5 --vcd", "--vcd has no value"),
            ("run x --us 5 --vcd -w", "--vcd has no value"),
            ("run x --us 0", "--us takes 1 to 10000000 microseconds"),
            ("run x --us 11s", "--us takes 1 to 10000000 microseconds"),
            ("run x --us 5 --budget 0", "--budget takes 1 to 10000000"),
            ("check x --us 5", "--us is no option of check"),
            ("make x --us 5", "SEED is a number"),
            ("twin a --us 5", "OTHER is missing"),
            ("decode w", "one of --uart, --spi and --i2c is missing"),
            ("decode w --bit 2", "--uart is missing"),
            ("decode w --spi a --mode 0", "--data is missing"),
            ("decode w --uart a --bit 2 --mode 0", "--uart and --mode do not go together"),
            ("decode w --uart a --bit 1", "--bit takes 2 to 1000000, and not 1"),
            ("decode w --spi a --data a --mode 4", "--mode takes 0 to 3, and not 4"),
            ("decode w --i2c a --sda", "--sda has no value"),
            ("decode --i2c a --sda b", "WAVE is missing"),
        ]
        for given, said in table:
            found = words.mistakes(given.split())[0]
            self.assertTrue(any(it.startswith(said) for it in found), (given, found))
        self.assertEqual(words.mistakes(["run", "a\udcff", "--us", "5"])[0], ["a word is not text in UTF-8"])

    def test_right_words_have_no_mistake(self):
        for given in ("run x --us 5 --vcd - --report=-", "bare h --us 10000000", "make 4294967295 --us 0005", "check -- --us", "replay f w --us 5", "twin a b --us 5 --budget 7", "decode w --sda b --i2c a", "decode w --uart= --bit=0136", "decode w --spi a --data b --mode 3"):
            self.assertEqual(words.mistakes(given.split())[0], [], given)

    def test_words_that_cannot_be_right_build_nothing(self):
        for given in ("rnu x", "run x", "run x --us 0", "check", "decode w --uart a"):
            self.assertTrue(words.are_wrong(given.split()), given)
        for given in ("run x --us 5s", "check x", "test edge waves", "test --list", "completion bash"):
            self.assertFalse(words.are_wrong(given.split()), given)

    def test_an_output_that_is_an_input_is_named(self):
        with tempfile.TemporaryDirectory() as folder:
            project = pathlib.Path(folder, "p")
            project.mkdir()
            (project / "wokwi.toml").write_text("[wokwi]\nversion = 1\nfirmware = 'a.hex'\n[[chip]]\nname = 'c'\nbinary = \"c.wasm\"\n")
            for name in ("diagram.json", "a.hex", "c.wasm", "c.json", "other"):
                (project / name).write_text("")
            os.symlink(project / "a.hex", f"{folder}/link")
            given = ["run", str(project), "--us", "5", "--script", f"{project}/other"]
            for name in ("wokwi.toml", "diagram.json", "a.hex", "c.wasm", "c.json", "other"):
                self.assertIn(f"--vcd overwrites {project}/{name}", "".join(words.overwrites([*given, "--vcd", f"{project}/{name}"])))
            self.assertEqual(len(words.overwrites([*given, f"--report={folder}/link"])), 1)
            self.assertEqual(words.overwrites([*given, "--vcd", f"{project}/new", "--report", "-"]), [])
            self.assertIn("name one file", words.overwrites([*given, "--vcd", f"{folder}/w", "--report", f"{folder}/../{os.path.basename(folder)}/w"])[0])


class Pages(unittest.TestCase):
    def test_each_command_of_the_program_has_its_row(self):
        definition = (ROOT / "crates/cli_words_model/specs/Request.antt").read_text()
        known = set(re.findall(r'bytes_eq command \(codes "([a-z]+)"\)', definition))
        self.assertTrue({"bare", "check", "decode", "make", "module", "run", "twin", "replay"} <= known)
        self.assertEqual(set(pages.commands("The program")), known)
        it = pages.commands()["run"]
        self.assertEqual((it.takes, it.needed, list(it.options)), (["FOLDER"], ["--us"], ["--us", "--script", "--vcd", "--report", "--budget"]))
        it = pages.commands()["decode"]
        self.assertEqual((it.takes, it.needed, it.one_of), (["WAVE"], [], [["--uart", "--bit"], ["--spi", "--data", "--mode"], ["--i2c", "--sda"]]))

    def test_each_refusal_has_its_row(self):
        source = (ROOT / "crates/sim_refusals/src/numbers.rt").read_text()
        numbers = {name: int(number) for name, number in re.findall(r"(?m)^pub const ([A-Z0-9_]+): u\d+ = (\d+);", source)}
        readers = "".join(it.read_text() for it in ROOT.glob("crates/*/src/*.rt") if it.parts[-3] != "sim_refusals")
        given = {name: number for name, number in numbers.items() if re.search(rf"\b{name}\b", readers)}
        self.assertGreater(len(given), 40)
        self.assertEqual([name for name, number in given.items() if pages.refusal(number)[0] is None], [])

    def test_each_trap_has_its_row(self):
        for number in range(1, 15):
            self.assertTrue(pages.trap(number), number)
        self.assertEqual(pages.trap(9)[0], "Budget")

    def test_registers_are_read_from_the_report_s_page(self):
        self.assertEqual(pages.registers()[0x61], ("CLKPR", "the clock and power control"))
        self.assertEqual(pages.halts()[0x95E8], "SPM, which writes the flash")

    def test_all_commands_are_in_the_manual_and_the_completions(self):
        for form in (manual.man, manual.bash, manual.zsh, manual.fish):
            for name in pages.commands():
                self.assertIn(name, form().replace("\\-", "-"), form)

    def test_bash_reads_its_completions(self):
        asked = manual.bash() + "\nCOMP_WORDS=(mudflatjar run x --v); COMP_CWORD=3; _mudflatjar; echo \"${COMPREPLY[@]}\"\nCOMP_WORDS=(mudflatjar twi); COMP_CWORD=1; _mudflatjar; echo \"${COMPREPLY[@]}\""
        said = subprocess.run(["bash", "-c", asked], stdout=subprocess.PIPE, check=True).stdout
        self.assertEqual(said, b"--vcd\ntwin\n")


class Sentences(unittest.TestCase):
    def left(self, *lines):
        return list(tell.left_out("\n".join(lines) + "\n"))

    def test_a_good_run_says_nothing(self):
        self.assertEqual(self.left("cycles 16", "uno uno pc 0x0002 run", "led led1 on lit 3", "chip c1 alive", "lcd d 1 |chip c1 trap 9 at|"), [])
        self.assertEqual(self.left("cycles 16", "uno uno pc 0x0002 sleep"), [])

    def test_registers_of_one_unit_are_one_sentence(self):
        said = self.left("uno uno pc 0x0002 run", "uno uno ignored 0x50", "uno uno ignored 0x61", "uno uno ignored 0x64")
        self.assertEqual([it.split(" (docs")[0] for it in said], [
            "uno: the firmware wrote to the analog comparator (ACSR 0x50), which is not simulated: nothing happened",
            "uno: the firmware wrote to the clock and power control (CLKPR 0x61, PRR 0x64), which is not simulated: nothing happened",
        ])
        self.assertIn("0x20, 0x21, where no register is", self.left("uno uno ignored 0x20", "uno uno ignored 0x21")[0])

    def test_a_halt_names_its_word(self):
        self.assertIn("halted at word address 0x0049, on the word 0x95E8: SPM", self.left("uno uno pc 0x0049 halt 0x95E8")[0])
        self.assertIn("no instruction of the ATmega328P", self.left("uno uno pc 0x0049 halt 0x00FF")[0])

    def test_a_trap_has_its_name_and_microseconds(self):
        self.assertIn("c1: trap 9 (Budget) ended this chip after 12.5 us", self.left("chip c1 trap 9 at 200")[0])

    def test_the_part_s_own_name_is_told(self):
        with tempfile.TemporaryDirectory() as folder:
            file = f"{folder}/diagram.json"
            pathlib.Path(file).write_text('\ufeff{"parts": [{"id": "led1", "type": "wokwi-lde"}], "connections": [["uno:13", "led1:\\u001b[2J"]]}')
            said = list(tell.refused(f"{file}: refused 42 TypeUnknown part 1"))
            self.assertEqual(said[0], "part 1 is led1 of type wokwi-lde")
            self.assertTrue(said[1].startswith("TypeUnknown: ") and said[1].endswith("(docs/REFUSALS.md)"), said)
            self.assertEqual(list(tell.refused(f"{file}: refused 44 PinUnknown connection 1"))[0], "connection 1 is uno:13 to led1:?[2J")
            self.assertEqual(len(list(tell.refused(f"{file}: refused 44 PinUnknown connection 9"))), 1)
            pathlib.Path(file).write_text("{")
            self.assertEqual(len(list(tell.refused(f"{file}: refused 40 JsonText"))), 1)
            script = f"{folder}/script"
            pathlib.Path(script).write_text("5us press b\n6us push b\n")
            self.assertEqual(list(tell.refused(f"{script}: refused 80 ScriptLine line 2"))[0], 'line 2 is "6us push b"')

    def refused(self, name, data, line):
        with tempfile.TemporaryDirectory() as folder:
            file = pathlib.Path(folder, name)
            file.write_bytes(data)
            return [text.replace(f"{folder}/", "") for text in tell.refused(f"{file}: {line}")]

    def test_an_import_that_is_refused_is_named_with_its_types(self):
        def module(name, types):
            section = lambda kind, body: bytes([kind, len(body)]) + body
            return b"\0asm\1\0\0\0" + section(1, b"\1\x60" + types) + section(2, b"\1\3env" + bytes([len(name)]) + name + b"\0\0")

        said = self.refused("a.wasm", module(b"getSimNanos", b"\0\1\x7c"), "refused 76 ImportType import 1")
        self.assertEqual(said[0], "import 1 is env getSimNanos (nothing to double), and here it has whole numbers: use the wokwi-api.h of the kit; "
                                  "a module that was made for Wokwi's simulator alone has it so: build its source with sdk/build.sh")
        said = self.refused("a.wasm", module(b"pinADCRead", b"\1\x7f\1\x7d"), "refused 75 ImportUnknown import 1")
        self.assertEqual(said[0], "import 1 is env pinADCRead (i32 to float), which is not there: pins are low or high")
        said = self.refused("a.wasm", module(b"pinRead", b"\1\x7f\0"), "refused 76 ImportType import 1")
        self.assertEqual(said[0], "import 1 is env pinRead (i32 to nothing)")
        self.assertEqual(len(self.refused("a.wasm", b"x", "refused 75 ImportUnknown import 1")), 1)

    def test_the_three_causes_of_79_are_told_apart(self):
        data = ROOT / "crates/rows_modules/data"
        for name, place, text in (("79-memory", "section 5 entry 0", "the memory begins with 65 pages of 64 KiB (4,259,840 bytes), and 64 is the most"),
                                  ("79-table", "section 4 entry 0", "the table begins with 8,193 entries, and 8,192 is the most"),
                                  ("79-operands", "function 0 instruction 1024", "the body's expression has more than 1,024 operands at once")):
            (said,) = self.refused("a.wasm", (data / f"{name}.wasm").read_bytes(), f"refused 79 ValidLimit {place}")
            self.assertTrue(said.startswith(f"ValidLimit: {text}"), said)

    def test_what_a_file_is_that_was_refused(self):
        said = self.refused("f.hex", b"\x7fELF....", "refused 20 HexStart line 1")
        self.assertIn("f.hex is an ELF file, and a firmware is Intel HEX here: ./mudflatjar play takes it, or avr-objcopy", said[0])
        said = self.refused("w.vcd", b"$timescale" + bytes(16_777_216), "refused 10 FileTooLong")
        self.assertEqual(said[0], "the wave has 16,777,226 bytes, and 16,777,216 is the most: a run of a shorter --us writes a shorter one")
        self.assertEqual(len(self.refused("w.vcd", b"$timescale", "refused 10 FileTooLong")), 1)

    @unittest.skipIf(sys.version_info < (3, 11), "it needs Python 3.11")
    def test_what_a_chip_does_not_get_is_told(self):
        with tempfile.TemporaryDirectory() as folder:
            example = ROOT / "examples/chip-blinker"
            for name in ("wokwi.toml", "blinker.wasm", "blinker.json"):
                pathlib.Path(folder, name).write_bytes((example / name).read_bytes())
            text = (example / "diagram.json").read_text()
            for value, said in (('"micros": "500"', []), ('"micros": "0.5"', ['blink1: the chip reads its attribute "micros" as a whole number, and "0.5" is none']),
                                ('"micro": "500"', ['blink1: its attribute "micro" ("500") is none that the chip asks for; is it "micros"?'])):
                pathlib.Path(folder, "diagram.json").write_text(text.replace('"micros": "500"', value))
                found = list(tell.of_chips(folder))
                self.assertEqual([text[: len(part)] for text, part in zip(found, said)], said)
                self.assertEqual(len(found), len(said))
        self.assertEqual(list(tell.of_chips(str(ROOT / "examples/button"))), [])

    def test_what_is_not_built_is_told(self):
        with tempfile.TemporaryDirectory() as folder:
            self.assertEqual(list(tell.missing(f"{folder}/a.wasm: missing")), ["this chip is not built: its source is not next to where it was looked for"])
            pathlib.Path(folder, "a.chip.c").touch()
            pathlib.Path(folder, "a.ino").touch()
            self.assertEqual(list(tell.missing(f"{folder}/a.wasm: missing")), [f"this chip is not built: sdk/build.sh -o {folder}/a.wasm {folder}/a.chip.c builds it; ./mudflatjar play {folder} does too"])
            self.assertEqual(list(tell.missing(f"{folder}/b.hex: missing")), [f"the firmware that wokwi.toml names is not there: ./mudflatjar play {folder} builds the sketch"])
            self.assertEqual(list(tell.missing(f"{folder}/diagram.json: missing")), [])

    def test_a_word_of_another_kind_is_told(self):
        with tempfile.TemporaryDirectory() as folder:
            for name in ("a/diagram.json", "a/a.ino", "p/wokwi.toml", "s/s.ino"):
                pathlib.Path(folder, name).parent.mkdir(exist_ok=True)
                pathlib.Path(folder, name).touch()
            for given, said in (
                (["run", f"{folder}/none", "--us", "5"], [f"there is no folder {folder}/none"]),
                (["check", f"{folder}/a/a.ino"], ["a.ino is a file, and check takes a project's folder: ./mudflatjar play "]),
                (["check", f"{folder}/a/diagram.json"], ["is a file, and check takes a project's folder: docs/PROJECTS.md"]),
                (["run", f"{folder}/a", "--us", "5"], [f"{folder}/a has no wokwi.toml, which names a project's firmware (docs/PROJECTS.md): ./mudflatjar play {folder}/a"]),
                (["twin", f"{folder}/p", f"{folder}/a", "--us", "5"], [f"{folder}/a has no wokwi.toml"]),
                (["check", f"{folder}/s"], [f"{folder}/s has no wokwi.toml, which names a project's firmware (docs/PROJECTS.md): ./mudflatjar play {folder}/s"]),
                (["bare", f"{folder}/p", "--us", "5"], ["is a folder, and bare takes a HEX file: ./mudflatjar run "]),
                (["run", f"{folder}/p", "--us", "5"], []),
                (["bare", f"{folder}/a/none.hex", "--us", "5"], []),
                (["rnu", "x"], []),
            ):
                found = list(tell.unread(given))
                self.assertEqual(len(found), len(said), given)
                for text, part in zip(found, said):
                    self.assertIn(part, text)
            os.mkdir(f"{folder}/e")
            self.assertEqual(list(tell.unread(["check", f"{folder}/e"])), [f"{folder}/e has no wokwi.toml, which names a project's firmware (docs/PROJECTS.md)"])
            told = list(tell.unwritten(["run", "x", "--us", "5", "--vcd", f"{folder}/none/w.vcd", f"--report={folder}"]))
            self.assertEqual(told, [f"--vcd {folder}/none/w.vcd: there is no folder {folder}/none", f"--report {folder}: it is a folder"])
            self.assertEqual(list(tell.unwritten(["run", "x", "--us", "5", "--vcd", f"{folder}/w.vcd", "--report", "-"])), [])

    def test_control_characters_are_not_shown(self):
        self.assertEqual(tell.controls_hidden(b"a\x1b[2J\nb\x00\xc2\x9bc\xc3\xa9"), b"a?[2J?b??c\xc3\xa9")

    def test_the_report_is_asked_for_where_none_is(self):
        self.assertEqual(run.with_report(["run", "x", "--us", "5"], 7), (["run", "--report=/dev/fd/7", "x", "--us", "5"], False))
        self.assertEqual(run.with_report(["run", "x", "--report", "-", "--us", "5"], 7), (["run", "x", "--report=/dev/fd/7", "--us", "5"], True))
        self.assertEqual(run.with_report(["run", "--report=-", "x"], 7), (["run", "--report=/dev/fd/7", "x"], True))
        for given in (["run", "x", "--report", "f"], ["run", "x", "--report=f"], ["check", "x"], ["run", "--report", "-", "--report", "-"], ["rnu"]):
            self.assertEqual(run.with_report(given, 7), (given, None))
        self.assertEqual(run.with_report(["run", "--", "--report"], 7)[0], ["run", "--report=/dev/fd/7", "--", "--report"])


class Tools(unittest.TestCase):
    BEGINS = """import os, subprocess, sys
child = subprocess.Popen(["sleep", "60"])
with open(sys.argv[1] + ".new", "w") as file:
    file.write(str(child.pid))
os.rename(sys.argv[1] + ".new", sys.argv[1])
try:
    child.wait()
finally:
    os.unlink(sys.argv[1])
"""

    def started(self, text, *given):
        folder = tempfile.TemporaryDirectory()
        self.addCleanup(folder.cleanup)
        file = pathlib.Path(folder.name, "it.py")
        file.write_text(text)
        return file, subprocess.Popen([sys.executable, "-BESs", str(ROOT / "tools/script/tool.py"), str(file), "it", *given], stdout=subprocess.PIPE, stderr=subprocess.DEVNULL)

    def test_words_and_status(self):
        _, tool_ = self.started("import sys\nprint(sys.argv[1:])\nsys.exit(3)", "x", "--us", "2s")
        self.assertEqual((tool_.communicate()[0], tool_.returncode), (b"['x', '--us', '2s']\n", 3))
        _, tool_ = self.started("import os\nos.kill(os.getpid(), 9)")
        tool_.communicate()
        self.assertEqual(tool_.returncode, -9)

    def test_a_signal_ends_all_that_was_begun(self):
        for number in (signal.SIGTERM, signal.SIGHUP, signal.SIGINT):
            with tempfile.TemporaryDirectory() as folder:
                noted = pathlib.Path(folder, "pid")
                _, tool_ = self.started(self.BEGINS, str(noted))
                while not noted.exists():
                    time.sleep(0.05)
                child = noted.read_text()
                tool_.send_signal(number)
                tool_.communicate(timeout=60)
                self.assertEqual(tool_.returncode, -number)
                self.assertFalse(noted.exists())
                state = pathlib.Path("/proc", child, "stat")
                self.assertTrue(not state.exists() or state.read_text().split()[2] == "Z")

    def test_an_older_python_is_told(self):
        play, checks = str(ROOT / "tools/wokwi/play"), str(ROOT / "tools/script/checks.py")
        self.assertEqual(tool.too_old(play, (3, 10, 12)), "this needs Python 3.11 or later, and python3 is 3.10")
        self.assertEqual([tool.too_old(play, (3, 11, 2)), tool.too_old(checks, (3, 8, 10))], [None, None])


class Checks(unittest.TestCase):
    def read(self, text: str) -> dict:
        with tempfile.NamedTemporaryFile("w", suffix=".txt") as file:
            file.write(text)
            file.flush()
            with mock.patch.object(checks, "LIST", pathlib.Path(file.name)), mock.patch("sys.stderr", io.StringIO()) as self.said:
                return checks.checks()

    def test_a_check_has_what_the_lines_above_it_say(self):
        found = self.read("# the list\n\n# One thing,\n# and another.\none  sh one.sh\n# More.\ntwo  sh two.sh x\n")
        self.assertEqual(found, {"one": (["sh", "one.sh"], "One thing, and another."), "two": (["sh", "two.sh", "x"], "More.")})

    def test_what_is_wrong_with_a_list_has_its_line(self):
        for text, fault in (
            ("# All.\n\none  true\n", "line 3: no line above one says what it shows"),
            ("# One.\none  true\ntwo  true\n", "line 3: no line above two says what it shows"),
            ("# One.\none\n", "line 2: a name of its own and a command"),
            ("# One.\none  true\n# One.\none  true\n", "line 4: a name of its own and a command"),
        ):
            with self.subTest(text), self.assertRaises(SystemExit) as end:
                self.read(text)
            self.assertIn(fault, self.said.getvalue() + str(end.exception))

    def test_tests_have_the_names_of_tests(self):
        named = {it[0].split("/")[-1] for it in (check.words[-1:] for check in checks.checks().values())}
        others = {it for it in named if not re.fullmatch(r"test_\w+\.py|check\.sh|(wrong|names|crates|links|memory|limits|commands)\.py", it)}
        self.assertEqual(others, set())
        tests = [it for it in (ROOT / "tools").rglob("*.py") if "\nimport unittest\n" in it.read_text(encoding="utf-8")]
        self.assertEqual([it.name for it in tests if not it.name.startswith("test_")], [])
        self.assertGreater(len(tests), 10)


class Build(unittest.TestCase):
    def test_each_crate_of_the_program_has_a_cost(self):
        costs = build.seconds()
        self.assertIn("sim_main", costs)
        self.assertNotIn("sim_rows", costs)
        self.assertTrue(all(it >= 0 for it in costs.values()))
        self.assertLessEqual(1, build.at_once())

    def test_the_guess_counts_what_waits(self):
        costs = build.seconds()
        alone, two, four = (build.guess(list(costs), costs, lanes, most) for lanes, most in ((1, 1), (3, 2), (5, 4)))
        self.assertAlmostEqual(alone, sum(costs.values()), delta=5)
        self.assertTrue(four < two < alone and two >= alone / 2 and four >= alone / 4)
        self.assertEqual(build.guess([], costs, 4, 4), 0)


if __name__ == "__main__":
    unittest.main()
