#!/usr/bin/env python3
"""Tests of tools/scenario.py, tools/run-tests, tools/wokwi/play and tools/unity.py on the program, by the examples' firmware."""
import os
import shutil
import signal
import subprocess
import sys
import tempfile
import time
import unittest
import zipfile
import xml.etree.ElementTree

HERE = os.path.dirname(os.path.abspath(__file__))
TOOLS = os.path.dirname(HERE)
EXAMPLES = os.path.join(TOOLS, "..", "examples")
sys.path[:0] = [HERE, TOOLS]
import scenario
from program import program_path

PRESS = "  - set-control: {part-id: btn1, control: pressed, value: 1}\n"


def call(*words, given=None, **more):
    environment = {key: value for key, value in os.environ.items() if not key.startswith("TEST_")}
    environment.update(MUDFLATJAR=program_path(), **more)
    ran = subprocess.run([os.path.join(TOOLS, words[0]), *words[1:]], input=given, capture_output=True, text=True, env=environment, check=False)
    return ran.returncode, ran.stdout, ran.stderr


class WithWork(unittest.TestCase):
    def setUp(self):
        self.work = tempfile.mkdtemp()
        self.addCleanup(shutil.rmtree, self.work)

    def put(self, name, text):
        path = os.path.join(self.work, name)
        os.makedirs(os.path.dirname(path), exist_ok=True)
        with open(path, "w", encoding="utf-8") as file:
            file.write(text)
        return path

    def read(self, name):
        with open(os.path.join(self.work, name), encoding="utf-8") as file:
            return file.read()


class ScenarioFiles(unittest.TestCase):
    def test_times(self):
        self.assertEqual([scenario.cycles(text) for text in ("1us", "62.5ns", "63ns", "500ms", "1.5s", 20, "0us")], [16, 1, 2, 8_000_000, 24_000_000, 320_000, 0])
        for text in ("", "1 minute", "-1us", "us", None, "1e3us"):
            self.assertRaises(scenario.Stop, scenario.cycles, text)

    def test_what_is_no_scenario(self):
        for text in ("", "steps: 3", "steps:\n- wait", "steps:\n- {a: 1, b: 2}", "steps:\n- take-screenshot: x", "version: 2\nsteps: []", "steps: []", "a: [", "\x00"):
            with tempfile.NamedTemporaryFile("w", suffix=".yaml", delete=False) as file:
                file.write(text)
            try:
                with self.assertRaises(scenario.Stop) as caught:
                    scenario.read_steps(file.name)
                self.assertEqual(caught.exception.status, 2, text)
            finally:
                os.unlink(file.name)


class Scenarios(WithWork):
    def play(self, steps, example="button", *words):
        path = self.put("scenario.yaml", "name: it\nversion: 1\nsteps:\n" + steps)
        return call("scenario.py", *words, os.path.join(EXAMPLES, example), path)

    def test_a_press_lights_the_led(self):
        status, out, _ = self.play("  - delay: 10ms\n" + PRESS + "  - expect-within: {of: {part-id: uno, pin: 2, value: 0}, part-id: led1, pin: A, value: 1, within: 20us}\n"
                                   "  - delay: 1ms\n  - expect-pin: {part-id: uno, pin: 13, value: 1}\n  - expect-report: [input btn1 1, led led1 on lit 1]\n")
        self.assertEqual(status, 0)
        self.assertEqual(len(out.splitlines()), 6)

    def test_a_pin_that_is_another(self):
        status, _, err = self.play("  - delay: 5ms\n  - expect-pin: {part-id: uno, pin: 13, value: 1}\n")
        self.assertEqual(status, 1)
        self.assertRegex(err, r"step 2, expect-pin: at 5 ms uno.13 is 0, since 0\.[0-9]+ ms, and not 1\n")

    def test_a_report_that_is_another(self):
        status, _, err = self.play("  - delay: 5ms\n  - expect-report: led led1 on lit 1\n")
        self.assertEqual(status, 1)
        self.assertIn("it has\n  led led1 off lit 0", err)

    def test_an_edge_that_comes_too_late(self):
        step = "  - expect-within: {of: {part-id: uno, pin: 2, value: 0}, part-id: uno, pin: 13, value: 1, within: 2us}\n"
        status, _, err = self.play("  - delay: 1ms\n" + PRESS + step)
        self.assertEqual(status, 1)
        self.assertIn("uno.2 becomes 0, and uno.13 does not become 1 within 2us: it is 0", err)

    def test_a_pulse_and_its_length(self):
        steps = "  - delay: 1ms\n" + PRESS + "  - delay: 3ms\n" + PRESS.replace("value: 1", "value: 0") + "  - expect-pulse: {part-id: btn1, pin: 1.l, value: 1, for: 3ms}\n"
        status, _, err = self.play(steps, "button", "--timeout", "50ms")
        self.assertEqual(status, 42)
        self.assertIn("within 50 ms no whole time in which btn1.1.l is 1 begins after 4 ms", err)
        steps = "  - expect-pulse: {part-id: uno, pin: 9, for: 1ms, within: 10us}\n"
        status, _, err = self.play(steps, "fade")
        self.assertEqual(status, 1)
        self.assertRegex(err, r"uno\.9 was 1 for 0\.[0-9]+ ms, from [0-9.]+ ms on, and not for 1ms within 10us")

    def test_bytes_are_waited_for_in_their_order(self):
        steps = "  - wait-serial: hello 1\n  - wait-serial: hello 2\n"
        status, out, _ = self.play(steps, "serial-hello")
        self.assertEqual(status, 0)
        at = [float(line.split()[0]) for line in out.splitlines()]
        self.assertTrue(100 < at[0] < at[1] < 220, at)
        status, _, err = self.play("  - wait-serial: hello 2\n  - wait-serial: hello 1\n", "serial-hello", "--timeout", "300")
        self.assertEqual(status, 42)
        self.assertIn("'hello 1' is not sent", err)

    def test_the_time_of_a_byte_is_the_one_in_which_it_comes_out(self):
        _, out, _ = self.play("  - wait-serial: hello 1\n", "serial-hello")
        us = int(float(out.split()[0]) * 1000)
        run = lambda us: subprocess.run([program_path(), "run", os.path.join(EXAMPLES, "serial-hello"), "--us", str(us)], capture_output=True, check=True).stdout
        bit = 1_000_000 / 9600
        self.assertIn(b"hello 1", run(us + 2))
        self.assertNotIn(b"hello 1", run(int(us - bit)))

    def test_texts_of_the_command_line(self):
        folder = os.path.join(EXAMPLES, "serial-hello")
        self.assertEqual(call("scenario.py", folder, "--expect-text", "hello 1")[0], 0)
        self.assertEqual(call("scenario.py", folder, "--expect-text", "bye", "--timeout", "200ms")[0], 42)
        status, _, err = call("scenario.py", folder, "--expect-text", "hello 1", "--fail-text", "hello 0")
        self.assertEqual((status, "'hello 0' was sent" in err), (1, True))
        self.assertEqual(call("scenario.py", folder, "--expect-text", "hello 0", "--fail-text", "hello 1")[0], 0)
        self.assertEqual(call("scenario.py", folder, "--expect-text", "bye", "--fail-text", "hello 1", "--timeout", "200ms")[0], 1)

    def test_the_scenario_of_the_folder(self):
        folder = os.path.join(self.work, "serial")
        shutil.copytree(os.path.join(EXAMPLES, "serial-hello"), folder)
        status, _, err = call("scenario.py", folder)
        self.assertEqual((status, "has no scenario: name one" in err), (2, True))
        self.put("serial/a.scenario.yaml", "version: 1\nsteps:\n  - wait-serial: hello 1\n")
        self.assertEqual(call("scenario.py", folder)[0], 0)
        self.put("serial/b.test.yaml", "steps: []\n")
        status, _, err = call("scenario.py", folder)
        self.assertEqual((status, "has a.scenario.yaml, b.test.yaml: name one" in err), (2, True))
        for words, text in (((os.path.join(self.work, "none"),), "No such file"), ((os.path.join(folder, "a.scenario.yaml"), "--expect-text", "x"), "Not a directory")):
            self.assertIn(text, call("scenario.py", *words)[2])

    def test_outputs_of_the_end(self):
        names = [os.path.join(self.work, name) for name in ("serial", "report", "wave")]
        status, _, _ = self.play("  - wait-serial: hello 0\n", "serial-hello", "--quiet", "--serial", names[0], "--report", names[1], "--vcd", names[2])
        self.assertEqual(status, 0)
        self.assertEqual(self.read("serial"), "hello 0")
        self.assertIn("uno uno pc", self.read("report"))
        self.assertIn("$enddefinitions", self.read("wave"))

    def test_controls(self):
        for value, control in (("0.5", "position"), ("512", "value")):
            status, _, err = self.play(f"  - delay: 5ms\n  - set-control: {{part-id: pot1, control: {control}, value: {value}}}\n  - delay: 5ms\n  - expect-report: input pot1 512\n", "pot-serial")
            self.assertEqual((status, err), (0, ""))
        for step in ("{part-id: pot1, control: position, value: 2}", "{part-id: pot1, control: size, value: 1}", "{part-id: uno, control: value, value: 1}",
                     "{part-id: none, control: value, value: 1}", "{part-id: pot1, value: 1}", "3", "{part-id: pot1, control: value, value: much}"):
            self.assertEqual(self.play(f"  - delay: 1ms\n  - set-control: {step}\n", "pot-serial")[0], 2, step)

    def test_keys_of_a_keypad_are_controls(self):
        step = "  - set-control: {part-id: %s, control: %s, value: %d}\n"
        keys = "".join(step % ("keypad1", *it) for it in (("r2c1", 1), ("r4c4", 1), ("r2c1", 0)))
        self.assertEqual(self.play(f"  - delay: 1ms\n{keys}  - delay: 1ms\n  - expect-report: input keypad1 32768\n", "keypad")[0], 0)
        for control in ("r0c1", "r5c1", "r1c5", "key"):
            self.assertEqual(self.play("  - delay: 1ms\n" + step % ("keypad1", control, 1), "keypad")[0], 2, control)

    def test_a_control_of_a_chip_is_set_before_the_first_cycle_alone(self):
        step = "  - set-control: {part-id: room, control: temperature, value: 19500}\n"
        status, _, err = self.play(step + "  - wait-serial: '19.5'\n", "chip-thermometer")
        self.assertEqual((status, err), (0, ""))
        status, _, err = self.play("  - delay: 1ms\n" + step, "chip-thermometer")
        self.assertEqual(status, 2)
        self.assertIn("it is a chip", err)

    def test_words_and_pins_that_are_not_there(self):
        self.assertEqual(self.play("  - expect-pin: {part-id: uno, pin: 14, value: 1}\n")[0], 2)
        self.assertEqual(self.play("  - expect-pin: {part-id: uno, pin: 13, value: up}\n")[0], 2)
        self.assertEqual(self.play("  - delay: soon\n")[0], 2)
        self.assertEqual(call("scenario.py")[0], 2)
        self.assertEqual(call("scenario.py", self.work, "none.yaml")[0], 2)
        self.assertEqual(call("scenario.py", "--help")[0], 0)


class RunTests(WithWork):
    def button(self, name, **files):
        folder = os.path.join(self.work, name)
        shutil.copytree(os.path.join(EXAMPLES, "button"), folder)
        for extra in ("check.txt", "pin13.txt"):
            os.unlink(os.path.join(folder, "expected", extra))
        self.put(f"{name}/us.txt", "60ms\n")
        for file, text in files.items():
            self.put(f"{name}/{file.replace('_', '.')}", text)
        return folder

    def test_tests_pass_and_fail(self):
        self.button("a")
        self.button("deep/b", scenario_yaml="version: 1\nsteps:\n  - delay: 1ms\n")
        status, out, _ = call("run-tests", self.work)
        self.assertEqual(status, 0)
        self.assertRegex(out, r"deep/b/scenario.yaml: passed, and yet\n    it expects nothing: .*\n3 passed, 0 failed, in [0-9.]+ s\n$")
        self.put("a/expected/report.txt", self.read("a/expected/report.txt").replace("lit 2", "lit 3"))
        junit = os.path.join(self.work, "made", "out.xml")
        keep = os.path.join(self.work, "kept")
        status, out, _ = call("run-tests", self.work, "--junit", junit, "--keep", keep)
        self.assertEqual(status, 1)
        self.assertIn("-led led1 off lit 3\n    +led led1 off lit 2\n", out)
        self.assertIn("2 passed, 1 failed", out)
        suite = xml.etree.ElementTree.parse(junit).getroot()
        self.assertEqual((suite.get("tests"), suite.get("failures")), ("3", "1"))
        self.assertIn("+led led1 off lit 2", suite.find(".//failure").text)
        kept, = os.listdir(keep)
        self.assertIn("lit 2", self.read(f"kept/{kept}/report.txt"))
        self.assertEqual(call("run-tests", self.work, "--update")[0], 0)
        self.assertIn("lit 2", self.read("a/expected/report.txt"))
        self.assertEqual(call("run-tests", self.work, "--keep", keep)[0], 0)
        self.assertEqual(os.listdir(keep), [])
        self.assertIn("File exists", call("run-tests", self.work, "--junit", os.path.join(junit, "x.xml"))[2])

    def test_update_fills_an_empty_folder(self):
        folder = self.button("a")
        shutil.rmtree(os.path.join(folder, "expected"))
        os.mkdir(os.path.join(folder, "expected"))
        self.assertEqual(call("run-tests", folder)[0], 1)
        self.assertEqual(call("run-tests", folder, "--update")[0], 0)
        self.assertEqual(sorted(os.listdir(os.path.join(folder, "expected"))), ["report.txt", "serial.txt"])
        self.assertIn("uno uno pc * run\n", self.read("a/expected/report.txt"))
        self.assertEqual(call("run-tests", folder)[0], 0)
        self.assertEqual(call("run-tests", folder, "--update")[0], 0)
        self.assertIn("uno uno pc * run\n", self.read("a/expected/report.txt"))

    def test_a_wave_is_compared_where_it_is_expected(self):
        folder = self.button("a")
        self.put("a/expected/wave.vcd", "")
        self.assertEqual(call("run-tests", folder, "--update")[0], 0)
        self.assertEqual(call("run-tests", folder)[0], 0)
        wave = self.read("a/expected/wave.vcd")
        for changed, place in ((wave.replace("#600000000", "#600000625"), "differs from 60000 us on, line "), (wave.replace("\n#600000000", ""), "differs from 60000 us on, line "),
                               (wave.replace("#0\n$dumpvars\nz!", "#0\n$dumpvars\n1!"), "differs from 0 us on, line "), (wave.replace("btn1.1.l", "btn2.1.l"), "differs in its declarations, line ")):
            self.put("a/expected/wave.vcd", changed)
            status, out, _ = call("run-tests", folder)
            self.assertEqual((status, f"wave.vcd: {place}" in out), (1, True), out)

    def test_what_keeps_a_test_from_running(self):
        for files, text in (({"us_txt": "long"}, "is no time"), ({"us_txt": "0"}, "0 is no time from 1us to 10s"), ({"us_txt": "11s"}, "11s is no time from 1us to 10s"), ({"script_txt": "5us push btn1\n"}, "refused 80 ScriptLine line 1"),
                            ({"diagram_json": "{"}, "is no diagram"), ({"wokwi_toml": "[wokwi]\nversion = 1\nfirmware = 'none.hex'\n"}, ""),
                            ({"scenario_yaml": "version: 1\nsteps:\n  - jump: 1\n"}, "there is no step jump"), ({"scenario_yaml": "steps: []\n"}, "has no `version`")):
            folder = self.button("a", **files)
            if "none.hex" in files.get("wokwi_toml", ""):
                os.unlink(os.path.join(folder, "button.ino"))
                self.put("a/b.hex", "")
                text = "more than one HEX file"
            status, out, _ = call("run-tests", folder)
            self.assertEqual(status, 1)
            self.assertIn(text, out)
            shutil.rmtree(folder)
        folder = self.button("a")
        self.put("a/expected/other.txt", "")
        self.assertIn("expected/other.txt: a run writes", call("run-tests", folder)[1])
        self.assertIn("it is not done in 1e-06 s", call("run-tests", folder, "--limit", "0.000001")[1])

    def test_shards_have_each_test_once(self):
        for n in range(7):
            self.button(f"t{n}")
        everything = call("run-tests", "--list", self.work)[1].splitlines()
        self.assertEqual(len(everything), 7)
        shards = [call("run-tests", "--list", "--shard", f"{k}/3", self.work)[1].splitlines() for k in (1, 2, 3)]
        self.assertEqual(sorted(sum(shards, [])), everything)
        self.assertEqual([len(shard) for shard in shards], [3, 2, 2])
        status_file = os.path.join(self.work, "status")
        bazel = call("run-tests", "--list", self.work, TEST_TOTAL_SHARDS="3", TEST_SHARD_INDEX="1", TEST_SHARD_STATUS_FILE=status_file)[1].splitlines()
        self.assertEqual(bazel, shards[1])
        self.assertTrue(os.path.exists(status_file))
        report = os.path.join(self.work, "bazel.xml")
        status, out, _ = call("run-tests", self.work, TEST_TOTAL_SHARDS="7", TEST_SHARD_INDEX="6", XML_OUTPUT_FILE=report)
        self.assertEqual(status, 0)
        self.assertIn("(1 of 7 tests)", out)
        self.assertEqual(xml.etree.ElementTree.parse(report).getroot().get("tests"), "1")
        for shard in ("0/3", "4/3", "1", "a/b"):
            self.assertEqual(call("run-tests", "--shard", shard, self.work)[0], 2)

    def test_ctrl_c_ends_it(self):
        for n in range(8):
            self.button(f"t{n}", us_txt="10s")
        ran = subprocess.Popen([os.path.join(TOOLS, "run-tests"), "--jobs", "2", self.work], stderr=subprocess.PIPE, stdout=subprocess.PIPE, text=True,
                               env=dict(os.environ, MUDFLATJAR=program_path()), start_new_session=True)
        children = f"/proc/{ran.pid}/task/{ran.pid}/children"
        for _ in range(600):  # until its workers are there
            with open(children, encoding="utf-8") as file:
                if len(file.read().split()) >= 2:
                    break
            time.sleep(0.1)
        time.sleep(0.5)
        os.killpg(ran.pid, signal.SIGINT)
        _, err = ran.communicate(timeout=60)
        self.assertEqual(ran.returncode, 130)
        self.assertIn("run-tests: stopped", err)

    def test_words(self):
        self.assertEqual(call("run-tests")[0], 2)
        self.assertEqual(call("run-tests", self.work)[0], 2)
        self.assertEqual(call("run-tests", os.path.join(self.work, "none"))[0], 2)
        self.assertEqual(call("run-tests", "--help")[0], 0)


class NotAsMeant(WithWork):
    """What a run did not do as it was meant fails its tests, and `play --strict`."""

    EMPTY = ":00000001FF\n"  # the core meets empty flash at once
    CLKPR = ":0600000000936100FFCF38\n:00000001FF\n"  # writes CLKPR, and goes round
    HALT = "uno: the core halted at word address 0x0000, on the word 0xFFFF: empty flash"

    def project(self, firmware, name="t", steps="  - delay: 1ms\n", parts="", wires="", more=""):
        self.put(f"{name}/a.hex", firmware)
        self.put(f"{name}/diagram.json", f'{{"version": 1, "parts": [{{"type": "wokwi-arduino-uno", "id": "uno"}}{parts}], "connections": [{wires}]}}')
        self.put(f"{name}/a.test.yaml", f"name: it boots\nversion: 1\n{more}steps:\n{steps}")
        return os.path.join(self.work, name)

    def test_a_halted_core_fails_a_scenario(self):
        status, _, err = call("scenario.py", self.project(self.EMPTY, steps="  - delay: 1ms\n  - expect-pin: {part-id: uno, pin: 13, value: z}\n"))
        self.assertEqual(status, 1)
        self.assertIn(f"scenario: all steps passed, but at 1 ms {self.HALT}", err)
        self.assertIn("allow: [..] in the scenario, or --allow, with one of: halt)", err)

    def test_where_it_is_meant_it_passes(self):
        expects = "  - delay: 1ms\n  - expect-report: uno uno pc * halt 0xFFFF\n"
        self.assertEqual(call("scenario.py", self.project(self.EMPTY, steps=expects, more="allow: [halt]\n"))[0], 0)
        self.assertEqual(call("scenario.py", self.project(self.EMPTY, steps=expects), "--allow", "halt")[0], 0)
        status, _, err = call("scenario.py", self.project(self.EMPTY, steps=expects, more="allow: [hlat]\n"))
        self.assertEqual((status, "allow: 'hlat' is none of halt, trap" in err), (2, True))
        self.assertEqual(call("scenario.py", self.project(self.EMPTY, steps=expects, more="allow: halt\n"))[0], 2)

    def test_what_was_written_to_and_is_not_there(self):
        folder = self.project(self.CLKPR)
        status, _, err = call("scenario.py", folder)
        self.assertEqual((status, "(CLKPR 0x61), which is not simulated" in err), (1, True))
        for name in ("CLKPR", "left-out", "0x61"):
            self.assertEqual(call("scenario.py", folder, "--allow", name)[0], 0)
        self.assertEqual(call("scenario.py", folder, "--allow", "PRR")[0], 1)

    def test_a_scenario_that_expects_nothing_says_so(self):
        loop = ":02000000FFCF30\n:00000001FF\n"
        folder = self.project(loop)
        status, out, _ = call("scenario.py", folder)
        self.assertEqual((status, "it expects nothing: no step of it waits" in out), (0, True))
        self.assertEqual(call("scenario.py", folder, "--strict")[0], 1)
        self.assertEqual(call("scenario.py", folder, "--expect-text", "x", "--timeout", "5ms")[0], 42)
        status, _, err = call("scenario.py", self.project("x\n"))  # refused firmware
        self.assertEqual((status, "refused 20 HexStart line 1" in err), (3, True))

    def test_the_report_s_place_may_be_any(self):
        step = "  - delay: 1ms\n  - expect-report: uno uno pc * %s\n"
        loop = ":02000000FFCF30\n:00000001FF\n"
        self.assertEqual(call("scenario.py", self.project(loop, steps=step % "run"))[0], 0)
        status, _, err = call("scenario.py", self.project(loop, steps=step % "sleep"))
        self.assertEqual((status, "uno uno pc 0x0000 run" in err), (1, True))

    def test_texts_and_times_that_cannot_be_meant(self):
        status, _, err = call("scenario.py", self.project(self.EMPTY, steps="  - wait-serial: ''\n"))
        self.assertEqual((status, "an empty text is there at once" in err), (2, True))
        status, _, err = call("scenario.py", self.project(self.EMPTY, steps="  - delay: 30s\n"), "--allow", "halt")
        self.assertEqual((status, "within 10000 ms all must be done" in err, "this delay of 30s ends at 30000 ms" in err), (42, True, True))

    def test_the_evidence_goes_on_to_the_failure_and_beyond(self):
        names = {name: os.path.join(self.work, name) for name in ("serial", "report", "vcd", "page")}
        words = [word for name, path in names.items() for word in (f"--{name}", path)] + ["--keep", os.path.join(self.work, "kept")]
        example = os.path.join(EXAMPLES, "serial-hello")
        path = self.put("s.yaml", "name: it\nversion: 1\nsteps:\n  - wait-serial: hello 0\n  - wait-serial: bye\n")
        status, _, err = call("scenario.py", example, path, "--timeout", "150ms", *words)
        self.assertEqual(status, 42)
        self.assertIn(f"scenario: {path}:5: step 2, wait-serial: within 150 ms 'bye' is not sent", err)
        self.assertEqual(self.read("serial"), "hello 0\nhello 1\n")
        self.assertIn("cycles 2400000\n", self.read("report"))
        self.assertTrue(self.read("vcd").endswith("#1500000000\n"))
        self.assertIn("hello 1", self.read("page"))
        again = self.read("kept/again.txt")
        self.assertIn(f"scenario: to see it again: {again}", err)
        self.assertRegex(again, r"^cd \S+/kept && \S+/mudflatjar look project --us 150000 --open\n$")
        self.assertEqual(subprocess.run([program_path(), "check", os.path.join(self.work, "kept", "project")], capture_output=True, check=True).stdout, b"accepted\n")
        path = self.put("s.yaml", "version: 1\nsteps:\n  - delay: 5ms\n  - expect-pin: {part-id: uno, pin: 13, value: 1}\n")
        self.assertEqual(call("scenario.py", example, path, "--report", names["report"])[0], 1)
        self.assertIn("cycles 96000\n", self.read("report"))  # 1 ms beyond
        path = self.put("s.yaml", "version: 1\nsteps:\n  - delay: 5ms\n  - expect-report: uno uno pc * run\n")
        self.assertEqual(call("scenario.py", example, path, "--report", names["report"])[0], 0)
        self.assertIn("cycles 80000\n", self.read("report"))  # and none where it passed

    def test_folders_and_junit(self):
        folder = self.project(self.EMPTY)
        self.put("t/us.txt", "1ms\n")
        self.put("t/expected/serial.txt", "")
        self.project("x\n", "refused")
        junit, keep = os.path.join(self.work, "j.xml"), os.path.join(self.work, "kept")
        status, out, _ = call("run-tests", self.work, "--junit", junit, "--keep", keep, "--page")
        self.assertEqual(status, 1)
        self.assertIn(f"{folder}: failed\n    {self.HALT}", out)
        self.assertIn("a line of allow.txt, or --allow, with one of: halt)", out)
        self.assertIn("refused/a.test.yaml: could not be tried\n    status 3: ", out)
        suite = xml.etree.ElementTree.parse(junit).getroot()
        self.assertEqual((suite.get("tests"), suite.get("failures"), suite.get("errors")), ("3", "2", "1"))
        cases = {case.get("file"): case for case in suite.iter("testcase")}
        case = cases[os.path.join(folder, "a.test.yaml")]
        self.assertEqual((case.get("name"), case.get("classname")), ("it boots", folder))
        self.assertIn(self.HALT, case.find("failure").text)
        self.assertIn("it expects nothing", case.find("system-out").text)
        self.assertIn("refused 20 HexStart", cases[os.path.join(self.work, "refused", "a.test.yaml")].find("error").text)
        kept = {name: sorted(os.listdir(os.path.join(keep, name))) for name in os.listdir(keep)}
        self.assertEqual(len(kept), 2)  # what could not be tried wrote nothing
        whole = ["again.txt", "page.html", "project", "report.txt", "serial.txt", "wave.vcd"]
        self.assertEqual(list(kept.values()), [whole, whole])
        for words in (["--allow", "halt"], ["--allow", "halt", "--strict", "--list"]):
            self.assertEqual(call("run-tests", folder, *words)[0], 0)
        self.assertEqual(call("run-tests", folder, "--allow", "halt", "--strict")[0], 1)  # the scenario expects nothing
        self.put("t/allow.txt", "# the sketch is empty\nhalt\n")
        os.unlink(os.path.join(folder, "a.test.yaml"))
        self.assertEqual(call("run-tests", folder)[0], 0)
        self.assertEqual(call("run-tests", folder, "--page")[0], 2)

    def test_update_of_a_dead_board_writes_nothing(self):
        folder = self.project(self.EMPTY)
        os.unlink(os.path.join(folder, "a.test.yaml"))
        self.put("t/us.txt", "1ms\n")
        os.mkdir(os.path.join(folder, "expected"))
        status, out, _ = call("run-tests", folder, "--update")
        self.assertEqual((status, "--update wrote nothing" in out, os.listdir(os.path.join(folder, "expected"))), (1, True, []))
        self.assertEqual(call("run-tests", folder, "--update", "--allow", "halt")[0], 0)
        self.assertIn("uno uno pc * halt 0xFFFF\n", self.read("t/expected/report.txt"))
        self.assertEqual(call("run-tests", folder)[0], 0)  # its line is expected now

    def test_what_is_told_alone_fails_by_strict(self):
        parts = ', {"type": "wokwi-potentiometer", "id": "pot1"}'
        folder = self.project(":02000000FFCF30\n:00000001FF\n", steps="  - delay: 1ms\n  - expect-report: uno uno pc * run\n", parts=parts, wires='["pot1:SIG", "uno:A0", "", []]')
        status, out, _ = call("run-tests", folder)
        self.assertEqual((status, f"{folder}/a.test.yaml: passed, and yet\n    pot1: its VCC and GND are not wired" in out), (0, True))
        status, out, _ = call("run-tests", folder, "--strict")
        self.assertEqual((status, "all steps passed, but at 1 ms pot1: its VCC and GND are not wired" in out), (1, True))
        self.assertEqual(call("run-tests", folder, "--strict", "--allow", "wiring")[0], 0)

    def test_play_and_look_say_the_same(self):
        folder = self.project(self.EMPTY, parts=', {"type": "wokwi-potentiometer", "id": "pot1"}, {"type": "wokwi-servo", "id": "s"}', wires='["pot1:SIG", "uno:A0", "", []]')
        page = os.path.join(self.work, "page.html")
        status, _, err = call("wokwi/play", folder, "--us", "1ms", "--quiet", "--page", page)
        self.assertEqual(status, 0)
        self.assertEqual(err.count(self.HALT), 1)
        self.assertEqual(err.count("play: pot1: its VCC and GND are not wired"), 1)
        self.assertIn("pot1: its VCC and GND are not wired", self.read("page.html"))
        self.assertEqual(call("wokwi/play", folder, "--us", "1ms", "--quiet", "--strict")[0], 1)
        loop = self.project(":02000000FFCF30\n:00000001FF\n", "loop", parts=', {"type": "wokwi-logic-analyzer", "id": "s"}')
        self.assertEqual([call("wokwi/play", loop, "--us", "1ms", *words)[0] for words in ([], ["--strict"])], [0, 1])  # a part is left out
        self.assertEqual(call("wokwi/play", self.project(":02000000FFCF30\n:00000001FF\n", "plain"), "--us", "1ms", "--strict")[0], 0)
        made = os.path.join(self.work, "made")
        self.assertEqual(call("wokwi/play", folder, "--us", "1ms", "--keep", made)[0], 0)
        status, _, err = call("look/look.py", made, "--us", "1ms", "-o", page, PROGRAM=program_path())
        self.assertEqual((status, f"look: {self.HALT}" in err, "look: pot1: its VCC and GND are not wired" in err), (0, True, True))

    def test_a_budget_for_each_call_of_a_chip(self):
        example = os.path.join(EXAMPLES, "chip-printf")
        for words in (["wokwi/play", example, "--us", "2ms"], ["look/look.py", example, "--us", "2ms", "-o", os.path.join(self.work, "p.html")]):
            self.assertNotIn("trap 9", call(*words, PROGRAM=program_path())[2])
            self.assertIn("trap 9 (Budget)", call(*words, "--budget", "10", PROGRAM=program_path())[2])
            self.assertEqual(call(*words, "--budget", "0", PROGRAM=program_path())[0], 2)
        path = self.put("s.yaml", "version: 1\nsteps:\n  - delay: 2ms\n")
        status, _, err = call("scenario.py", example, path, "--budget", "10")
        self.assertEqual((status, "trap 9 (Budget)" in err, "--budget" in err), (1, True, True))
        shutil.copytree(example, os.path.join(self.work, "c"))
        shutil.move(path, os.path.join(self.work, "c", "s.test.yaml"))
        self.assertEqual([call("run-tests", os.path.join(self.work, "c"), *words)[0] for words in ([], ["--budget", "10"], ["--budget", "10", "--allow", "trap"])], [0, 1, 0])


class Messages(WithWork):
    LOOP = ":02000000FFCF30\n:00000001FF\n"

    def test_a_word_that_comes_twice_is_refused(self):
        for words in (["scenario.py", "x", "--timeout", "1s", "--timeout", "2s"], ["run-tests", "x", "--keep", "a", "--keep", "b"], ["wokwi/play", "x", "--us", "1s", "--us=2s"],
                      ["look/look.py", "x", "--us", "5", "--us", "6"]):
            status, _, err = call(*words, PROGRAM=program_path())
            self.assertEqual((status, f"{words[2]} is given 2 times" in err or "--us is given 2 times" in err), (2, True), err)

    def test_a_time_is_echoed_as_it_was_given(self):
        self.assertIn("play: --us 30s: it is a time from 1us to 10s", call("wokwi/play", "x", "--us", "30s")[2])

    def test_firmware_that_is_named_and_not_there(self):
        none = os.path.join(self.work, "none.hex")
        self.assertIn(f"play: {none}: the firmware that is named is not there", call("wokwi/play", os.path.join(EXAMPLES, "button"), "--firmware", none)[2])
        self.put("p/diagram.json", '{"version": 1, "parts": [{"type": "wokwi-arduino-uno", "id": "uno"}], "connections": []}')
        self.put("p/wokwi.toml", "[wokwi]\nversion = 1\nfirmware = 'build/a.hex'\ngdbServerPort = 3333\n")
        folder = os.path.join(self.work, "p")
        status, _, err = call("wokwi/play", folder)
        self.assertEqual((status, f"the firmware that is named, {folder}/build/a.hex, is not there, and {folder} has no sketch, and no firmware" in err), (1, True), err)
        self.assertIn("wokwi.toml has gdbServerPort: no command here opens such a server", err)
        self.put("p/b.hex", self.LOOP)
        status, _, err = call("wokwi/play", folder, "--us", "1ms")
        self.assertEqual((status, f"the firmware that is named, {folder}/build/a.hex, is not there: b.hex is taken" in err), (0, True), err)

    def test_no_advice_names_a_folder_that_will_be_gone(self):
        wrong = self.put("bad.hex", "x\n")
        status, _, err = call("wokwi/play", wrong, "--us", "1ms")
        self.assertEqual((status, err.splitlines()[0]), (3, f"the project made of {wrong}: firmware.hex: refused 20 HexStart line 1"))

    def test_write_serial_has_a_chip_of_its_own(self):
        parts = "".join(f', {{"type": "wokwi-dht22", "id": "d{n}"}}' for n in range(8))
        self.put("p/diagram.json", f'{{"version": 1, "parts": [{{"type": "wokwi-arduino-uno", "id": "uno"}}{parts}], "connections": []}}')
        self.put("p/a.hex", self.LOOP)
        self.put("p/a.test.yaml", "version: 1\nsteps:\n  - write-serial: x\n  - delay: 1ms\n")
        status, _, err = call("scenario.py", os.path.join(self.work, "p"))
        self.assertEqual((status, "write-serial types by a chip of its own, and the board has 8 parts that are chips already: with it 7 are the most" in err), (1, True), err)

    @unittest.skipUnless(shutil.which("avr-g++") and not shutil.which("arduino-cli"), "no avr-g++")
    def test_a_build_says_what_it_takes_and_where_a_library_is(self):
        self.put("a/a.ino", "#include <Blinker.h>\nvoid setup() {}\nvoid loop() {}\n")
        self.put("a/Blinker/Blinker.h", "")
        status, _, err = call("wokwi/play", os.path.join(self.work, "a", "a.ino"), "--us", "1ms")
        self.assertEqual((status, f"{self.work}/a/Blinker has Blinker.h, and libraries are looked for in {self.work}/a/libraries: move it there" in err), (1, True), err)
        self.put("a/libraries/Blinker/Blinker.h", "")
        status, _, err = call("wokwi/play", os.path.join(self.work, "a", "a.ino"), "--us", "1ms")
        self.assertEqual(status, 0, err)
        self.assertRegex(err, r"play: it takes [0-9,]+ bytes of flash \([0-9]+ % of 32,256\), and its variables [0-9,]+ bytes of RAM \([0-9]+ % of 2,048\)\n")
        self.assertRegex(err, r"at the end the program counter is 0x[0-9A-F]{4}, in \w+")

    @unittest.skipUnless(shutil.which("avr-g++") and not shutil.which("arduino-cli") and shutil.which("avr-addr2line"), "no avr-g++")
    def test_the_line_where_a_core_halts(self):
        self.put("h/h.ino", 'void setup() {}\nvoid loop() {\n  asm volatile(".word 0x00FF");\n}\n')
        self.put("h/diagram.json", '{"version": 1, "parts": [{"type": "wokwi-arduino-uno", "id": "uno"}], "connections": []}')
        self.put("h/a.test.yaml", "version: 1\nsteps:\n  - delay: 1ms\n")
        for words in (["wokwi/play", os.path.join(self.work, "h"), "--us", "1ms"], ["scenario.py", os.path.join(self.work, "h")], ["run-tests", os.path.join(self.work, "h")]):
            _, out, err = call(*words)
            self.assertRegex(out + err, r"the core halted at word address 0x[0-9A-F]{4}, in \w+ at h\.ino:3, on the word 0x00FF")


@unittest.skipUnless(shutil.which("clang") and shutil.which("wasm-ld"), "no clang or wasm-ld")
class ChipsOfTheirOwn(WithWork):
    """Chips in C, which are built on the way."""

    LOOP = ":02000000FFCF30\n:00000001FF\n"
    TRAPS = """#include "wokwi-api.h"
static volatile int count, zero;
__attribute__((noinline)) static void deep(void) { if (++count == 3) count = 7 / zero; }
static void on_timer(void *user_data) { deep(); }
static void other(void *user_data) { count += 0; }
void chip_init(void) {
    const timer_config_t first = {.callback = on_timer}, second = {.callback = other};
    timer_start(timer_init(&first), 10, true);
    timer_start(timer_init(&second), 10, true);
}
"""

    def project(self, source, attrs="{}", pins="[]"):
        self.put("p/a.hex", self.LOOP)
        self.put("p/it.chip.c", source)
        self.put("p/it.chip.json", f'{{"name": "it", "pins": {pins}}}')
        self.put("p/diagram.json", f'{{"version": 1, "parts": [{{"type": "wokwi-arduino-uno", "id": "uno"}}, {{"type": "chip-it", "id": "c", "attrs": {attrs}}}], "connections": []}}')
        self.put("p/a.test.yaml", "version: 1\nsteps:\n  - delay: 1ms\n")
        return os.path.join(self.work, "p")

    def test_the_function_in_which_a_trap_came(self):
        folder = self.project(self.TRAPS)
        said = "c: trap 3 came in its function deep (chip-it.wasm)"
        self.assertIn(f"play: {said}", call("wokwi/play", folder, "--us", "1ms")[2])
        self.assertIn(said, call("scenario.py", folder)[1])
        os.unlink(os.path.join(folder, "a.test.yaml"))
        self.put("p/us.txt", "1ms")
        self.put("p/expected/serial.txt", "")
        status, out, _ = call("run-tests", folder)
        self.assertEqual((status, f"    {said}\n" in out, "c: trap 3 (DivideByZero) ended this chip after 30 us" in out), (1, True, True), out)
        status, out, _ = call("run-tests", folder, "--allow", "trap")
        self.assertEqual((status, said in out), (0, False))

    def test_attributes_in_thousandths(self):
        source = """#include "wokwi-api.h"
void chip_init(void) { if (attr_read_thousandths(attr_init_thousandths("distance", 0)) != EXPECTED) __builtin_trap(); }
"""
        for value, expected in (('"23.5"', 23500), ('"23"', 23000), ("-1.25", -1250), ('"0.0004"', 0)):
            folder = self.project(source.replace("EXPECTED", str(expected)), f'{{"distance": {value}}}')
            self.assertEqual(call("wokwi/play", folder, "--us", "1ms", "--strict")[0], 0, value)
            self.assertEqual(call("scenario.py", folder)[0], 0, value)
        folder = self.project(source.replace("EXPECTED", "7000"))
        self.put("p/a.test.yaml", "version: 1\nsteps:\n  - set-control: {part-id: c, control: distance, value: 7}\n  - delay: 1ms\n")
        self.assertEqual(call("scenario.py", folder)[0], 0)
        self.put("p/a.test.yaml", "version: 1\nsteps:\n  - set-control: {part-id: c, control: distnace, value: 7}\n  - delay: 1ms\n")
        self.assertIn('c: its attribute "distnace" ("7") is none that the chip asks for; is it "distance"?', call("scenario.py", folder)[2])

    def test_what_the_compiler_says_of_a_chip_is_said(self):
        source = '#include "wokwi-api.h"\nstatic int unused;\nvoid chip_init(void) { pin_init("OUT", OUTPUT); }\n'
        folder = self.project(source, pins='["Y"]')
        status, _, err = call("wokwi/play", folder, "--us", "1ms", "--strict")
        self.assertEqual((status, "unused variable 'unused'" in err, 'asks for the pin "OUT", which is not in ' in err), (1, True, True), err)
        self.assertIn('c: the chip asks for the pin "OUT", which is not in its JSON file (Y)', err)
        status, _, err = call("scenario.py", folder)
        self.assertEqual((status, 'c: the chip asks for the pin "OUT"' in err), (1, True))

    def test_a_console_that_is_cut(self):
        source = """#include "wokwi-api.h"
__attribute__((import_module("wasi_snapshot_preview1"), import_name("fd_write"))) int fd_write(int, const void *, int, void *);
static char line[8192];
void chip_init(void) {
    static uint32_t piece[2], written;
    piece[0] = (uint32_t)(uintptr_t)line, piece[1] = sizeof line;
    for (unsigned at = 0; at < sizeof line; at++) line[at] = at % 64 == 63 ? 10 : 120;
    for (int n = 0; n < 9; n++) fd_write(1, piece, 1, &written);
}
"""
        folder = self.project(source)
        said = "c: what this chip printed after its first 65,536 bytes is not shown"
        status, _, err = call("wokwi/play", folder, "--us", "1ms", "--strict", "--quiet")
        self.assertEqual((status, err.count(said)), (1, 1))
        status, _, err = call("scenario.py", folder)
        self.assertEqual((status, said in err), (1, True))
        self.assertEqual(call("scenario.py", folder, "--allow", "console")[0], 0)


class Play(WithWork):
    def test_a_folder_is_run(self):
        status, out, err = call("wokwi/play", os.path.join(EXAMPLES, "serial-hello"), "--us", "10ms")
        self.assertEqual((status, out), (0, "hello 0\n"))
        self.assertIn("play: uno uno pc", err)

    def test_a_firmware_alone_is_run(self):
        status, out, err = call("wokwi/play", os.path.join(EXAMPLES, "serial-hello", "serial-hello.hex"), "--us", "10ms", "--quiet")
        self.assertEqual((status, out, err), (0, "hello 0\n", ""))

    @unittest.skipUnless(shutil.which("avr-g++") and not shutil.which("arduino-cli"), "no avr-g++")
    def test_a_sketch_alone_is_run(self):
        self.put("project/project.ino", '#include "words.h"\nvoid setup() { Serial.begin(115200); say(); }\nvoid loop() {}\n')
        self.put("project/words.h", "#define WORDS \"by the header\"\n")
        self.put("project/say.ino", "void say() { Serial.println(WORDS); }\n")
        for other in ("diagram.json", "wokwi.toml", "script.txt"):
            self.put(f"project/{other}", "not read")
        status, out, err = call("wokwi/play", os.path.join(self.work, "project/project.ino"), "--us", "10ms")
        self.assertEqual((status, out), (0, "by the header\n"), err)
        self.assertIn("play: building project.ino\n", err)
        wrong = self.put("wrong.ino", "void setup() { nowhere(); }\nvoid loop() {}\n")
        status, _, err = call("wokwi/play", wrong, "--us", "10ms")
        self.assertEqual(status, 1)
        self.assertIn("wrong.ino:1:", err)

    def test_what_cannot_be_simulated_is_left_out_and_told(self):
        shutil.copy(os.path.join(EXAMPLES, "serial-hello", "serial-hello.hex"), self.work)
        self.put("diagram.json", '{"version": 1, "parts": [{"type": "wokwi-arduino-uno", "id": "uno"}, {"type": "wokwi-microsd-card", "id": "sd"}], "connections": []}')
        status, out, err = call("wokwi/play", self.work, "--us", "10ms")
        self.assertEqual((status, out), (0, "hello 0\n"))
        self.assertIn("left out: sd (wokwi-microsd-card)", err)
        self.assertEqual(call("wokwi/play", self.work, "--strict")[0], 1)

    def test_the_script_of_the_folder_and_files(self):
        report, wave = (os.path.join(self.work, name) for name in ("report", "wave"))
        status, _, _ = call("wokwi/play", os.path.join(EXAMPLES, "button"), "--us", "60ms", "--quiet", "--report", report, "--vcd", wave)
        self.assertEqual(status, 0)
        self.assertIn("led led1 off lit 2", self.read("report"))
        self.assertIn("$enddefinitions", self.read("wave"))

    def test_what_the_script_says_of_a_run_is_said(self):
        self.put("empty.hex", ":00000001FF\n")
        self.assertIn("uno: the core halted at word address 0x0000, on the word 0xFFFF: empty flash", call("wokwi/play", os.path.join(self.work, "empty.hex"), "--us", "10")[2])
        self.put("clkpr.hex", ":0600000000936100FFCF38\n:00000001FF\n")
        self.assertIn("wrote to the clock and power control (CLKPR 0x61), which is not simulated", call("wokwi/play", os.path.join(self.work, "clkpr.hex"), "--us", "10", "--quiet")[2])
        self.put("s.txt", "5ms press btn1\n")
        status, _, err = call("wokwi/play", os.path.join(EXAMPLES, "button"), "--us", "10", "--script", os.path.join(self.work, "s.txt"))
        self.assertEqual((status, 'line 1 is "5ms press btn1"' in err), (3, True))

    def test_pictures_of_displays_are_shown(self):
        _, _, err = call("wokwi/play", os.path.join(EXAMPLES, "oled-hello"), "--us", "80ms")
        lines = err.splitlines()
        self.assertIn("play: oled oled1 on", lines)
        self.assertIn("play: █" + "▀" * 126 + "█", lines)
        self.assertNotIn(" page ", err)
        lines = call("wokwi/play", os.path.join(EXAMPLES, "chip-display"), "--us", "100ms")[2].splitlines()
        self.assertIn("play: chip bars1 alive", lines)
        self.assertTrue(lines[-1].startswith("play: ▀") or lines[-1].startswith("play: █"), lines[-1])
        self.assertNotIn(" row ", "".join(lines))

    def test_the_page(self):
        page = os.path.join(self.work, "page.html")
        status, _, err = call("wokwi/play", os.path.join(EXAMPLES, "button"), "--us", "20ms", "--quiet", "--page", page)
        self.assertEqual(status, 0, err)
        self.assertIn("btn1", self.read("page.html"))

    def test_an_archive_is_run_with_its_script_or_refused(self):
        files = {name: os.path.join(EXAMPLES, "button", name) for name in ("diagram.json", "button.hex", "script.txt")}
        lab, page = os.path.join(self.work, "lab.zip"), os.path.join(self.work, "page.html")
        with zipfile.ZipFile(lab, "w", zipfile.ZIP_DEFLATED) as out:
            for name, path in files.items():
                out.write(path, name)
            out.writestr("wokwi-project.txt", "Downloaded\n")
        status, _, err = call("wokwi/play", lab, "--us", "60ms", "--page", page)
        self.assertEqual(status, 0, err)
        self.assertIn("play: led led1 off lit 2\n", err)
        self.assertTrue("<title>lab: a run</title>" in self.read("page.html"))
        with zipfile.ZipFile(lab, "a") as out:
            out.writestr("../../x.hex", "")
        self.assertEqual(call("wokwi/play", lab), (1, "", f"play: {lab}: ../../x.hex: this name leads out of the archive's folder\n"))
        self.assertEqual(call("wokwi/lower.py", lab, os.path.join(self.work, "out")), (1, "", f"lower: {lab}: ../../x.hex: this name leads out of the archive's folder\n"))
        self.assertEqual(sorted(os.listdir(self.work)), ["lab.zip", "page.html"])

    def test_words_and_files_that_are_not_there(self):
        self.assertEqual(call("wokwi/play")[0], 2)
        self.assertEqual(call("wokwi/play", self.work, "--us", "11s")[0], 2)
        self.assertEqual(call("wokwi/play", os.path.join(self.work, "none"))[0], 1)
        self.assertEqual(call("wokwi/play", self.work)[0], 1)
        self.assertIn("play: /none: no program is there", call("wokwi/play", os.path.join(EXAMPLES, "button"), "--program", "/none")[2])
        self.put("bad.hex", "x\n")
        self.assertEqual(call("wokwi/play", os.path.join(self.work, "bad.hex"))[0], 3)
        file = self.put("notes.txt", "x\n")
        self.assertEqual(call("wokwi/play", file)[1:], ("", f"play: {file}: it is neither a sketch (.ino) nor a firmware (.hex, .elf) nor an archive (.zip)\n"))


class Unity(WithWork):
    GOOD = "a.cpp:3:test_one:PASS\r\na.cpp:4:test_two:IGNORE\r\n\r\n2 Tests 0 Failures 1 Ignored\r\nOK\r\n"

    def test_outcomes(self):
        junit = os.path.join(self.work, "u.xml")
        self.assertEqual(call("unity.py", "--junit", junit, given=self.GOOD)[0], 0)
        suite = xml.etree.ElementTree.parse(junit).getroot()
        self.assertEqual((suite.get("tests"), len(suite.findall("testcase/skipped"))), ("2", 1))
        bad = self.GOOD.replace("PASS", "FAIL: Expected 1 Was 2").replace("0 Failures", "1 Failures")
        self.assertEqual(call("unity.py", "--junit", junit, given=bad)[0], 1)
        self.assertEqual(xml.etree.ElementTree.parse(junit).getroot().find(".//failure").get("message"), "Expected 1 Was 2")
        status, out, err = call("unity.py", given=self.GOOD.split("\r\n\r\n")[0])
        self.assertEqual((status, "counts did not come" in err), (1, True))
        self.assertIn("test_one:PASS", out)
        self.assertEqual(call("unity.py", given="0 Tests 0 Failures 0 Ignored\nOK\n")[0], 1)


if __name__ == "__main__":
    unittest.main()
