"""Tests of boards, on live boards of the program in PROGRAM; what needs it is skipped if it has none."""
import os
import re
import shutil
import signal
import subprocess
import sys
import tempfile
import textwrap
import time
import unittest

import common
from common import EXAMPLES, TOP, needs_arduino, needs_gcc, needs_serve
from mudflatjar import (
    Board,
    BoardError,
    LeftOut,
    NotServed,
    ProgramError,
    ProjectError,
    Refused,
    TimeUp,
    edge,
    high,
)
from mudflatjar.program import program

BUTTON = os.path.join(EXAMPLES, "button")
THERMOSTAT = os.path.join(EXAMPLES, "thermostat")
HELLO = os.path.join(EXAMPLES, "serial-hello")


@needs_serve
class Time(unittest.TestCase):
    def test_time_passes_as_it_is_told(self):
        with Board(BUTTON) as board:
            board.run(us=10, ms=1, cycles=3)
            self.assertEqual((board.now, board.us), (16_163, 1010.1875))
            with self.assertRaises(ValueError):
                board.run(-1)
            with self.assertRaises(ValueError):
                board.run(s=625_000)
            self.assertEqual(board.now, 16_163)

    def test_a_condition_ends_a_run_in_its_cycle(self):
        # the figures of the protocol's page: a press in cycle 160,000 moves pin 13 in cycle 160,093
        with Board(BUTTON) as board:
            board.run(ms=10)
            board.press("btn1")
            self.assertEqual(board.until(high("btn1:1.l"), edge("btn1:1.l")), edge("btn1:1.l"))
            self.assertEqual(board.now, 160_001)
            board.until(edge("uno:13"))
            self.assertEqual(board.now, 160_093)
            self.assertEqual(board.pin("uno:13").level, "1")

    def test_what_does_not_come_is_time_up(self):
        with Board(BUTTON) as board:
            with self.assertRaisesRegex(
                TimeUp, "from 0 ms to 1.5 ms there was no cycle in which uno:13 is 1 or uno:12 is 1"
            ):
                board.until(high("uno:13"), high("uno:12"), timeout_us=1500)
            self.assertEqual(board.now, 24_000)

    def test_pulses_and_periods(self):
        with Board(os.path.join(EXAMPLES, "blink")) as board:
            pin = board.pin("uno:13")
            period = pin.period()
            self.assertAlmostEqual(pin.pulse(1) + pin.pulse(0), period, delta=0.3)
            self.assertEqual(pin.wait(1), board.us)


@needs_serve
class Hands(unittest.TestCase):
    def test_a_script_is_what_was_done(self):
        with tempfile.TemporaryDirectory() as keep:
            with Board(BUTTON) as board:
                board.run(ms=10)
                board.tap("btn1", ms=10)
                board.set("btn1", 1, cycle=480_000)
                board.run(us=15_000)
                self.assertEqual(board.script_text(), "160000cy set btn1 1\n320000cy set btn1 0\n480000cy set btn1 1\n")
                board.kept(keep)
            # the same by one run of the program, byte for byte
            words = [program(), "run", f"{keep}/project", "--us", "35000", "--script", f"{keep}/script.txt"]
            words += ["--vcd", f"{keep}/again.vcd", "--report", f"{keep}/again.txt"]
            sent = subprocess.run(words, stdout=subprocess.PIPE, check=True).stdout
            self.assertEqual(read(f"{keep}/report.txt"), read(f"{keep}/again.txt"))
            self.assertTrue(read(f"{keep}/again.vcd").startswith(read(f"{keep}/wave.vcd")))
            self.assertIn(b"#300048125", read(f"{keep}/wave.vcd"))  # a change in the last milliseconds
            self.assertEqual(read(f"{keep}/serial.txt"), sent)

    def test_a_script_can_be_given(self):
        with Board(BUTTON, script=os.path.join(BUTTON, "script.txt")) as board:
            board.run(ms=60)
            self.assertEqual(board.report.times_lit("led1"), 2)
        with tempfile.TemporaryDirectory() as folder:
            with open(f"{folder}/s.txt", "w", encoding="utf-8") as file:
                file.write("# first\n10us press btn1\n20us jump btn1\n")
            with self.assertRaisesRegex(ValueError, "s.txt: line 3: '20us jump btn1' is no line of a script"):
                Board(BUTTON, script=f"{folder}/s.txt")

    def test_controls_are_moved_in_their_units(self):
        parking = os.path.join(TOP, "tools", "wokwi", "projects", "parking")
        with Board(parking, serial_input=False) as board:
            board.run(ms=20)
            board.move("ultrasonic1", "distance", 120)
            self.assertEqual(board.now, 320_000)
            self.assertTrue(board.script)
            self.assertTrue(all(part.startswith("ultrasonic1") and at >= 320_000 for at, part, _ in board.script))
            self.assertNotIn("input ultrasonic1", board.report.text)
            for part, control, value, text in [
                ("ultrasonic1", "distance", 1, "ultrasonic1 takes a distance from "),
                ("ultrasonic1", "height", 1, "ultrasonic1 has no "),
                ("nobody", "distance", 1, "nobody"),
            ]:
                with self.assertRaisesRegex(ValueError, text):
                    board.move(part, control, value)
        with Board(parking, serial_input=False, script=os.path.join(parking, "script.txt")) as one:
            one.run(ms=300)
            with open(os.path.join(parking, "expected", "serial.txt"), "rb") as file:
                self.assertEqual(one.serial.received, file.read())

    def test_what_a_part_does_not_take_is_refused(self):
        with Board(BUTTON) as board:
            board.run(us=10)
            for part, value, cycle, number in [("btn2", 1, None, 104), ("btn1", 2, None, 105), ("btn1", 1, 5, 106)]:
                with self.assertRaises(Refused) as caught:
                    board.set(part, value, cycle)
                self.assertEqual(caught.exception.number, number)
            with self.assertRaisesRegex(Refused, "the board has no pin of this name"):
                board.pin("uno:99").level
            self.assertEqual((board.script, board.now), ([], 160))

    def test_a_pin_is_driven_and_let_go_of(self):
        with Board(BUTTON, inputs=["uno:7"]) as board:
            board.run(us=10)
            self.assertEqual(board.pin("uno:7").level, "z")
            for level in (1, 0, 1):
                board.drive("uno:7", level)
                board.run(cycles=2)
                self.assertEqual(board.pin("uno:7").level, str(level))
            board.pin("uno:7").drive(None)
            board.run(cycles=2)
            self.assertEqual(board.pin("uno:7").level, "z")
            with self.assertRaisesRegex(ValueError, r"Board\(folder, inputs=\['uno:8'\]\)"):
                board.drive("uno:8", 1)
            self.assertNotIn("test-", board.report.text)


@needs_serve
class Bytes(unittest.TestCase):
    def test_what_is_sent_is_expected_in_order(self):
        with Board(HELLO) as board:
            found = board.serial.expect(re.compile(rb"(h\w+)"), timeout_us=20_000)
            text = found[1]
            self.assertEqual(board.serial.received[-len(text) :], text)
            board.run(ms=20)
            rest = board.serial.read()
            self.assertEqual(text + rest, board.serial.received[-len(text + rest) :])
            self.assertEqual(board.serial.read(), b"")

    def test_a_text_is_complete_in_the_cycle_in_which_it_is_expected(self):
        with Board(HELLO) as one, Board(HELLO) as other:
            one.serial.expect("hell", timeout_us=20_000)
            other.run_to(one.now - 1)
            self.assertFalse(other.serial.received.endswith(b"hell"))
            other.run(cycles=1)
            self.assertTrue(other.serial.received.endswith(b"hell"))

    def test_what_came_in_its_place_is_in_the_message(self):
        with Board(HELLO) as board:
            with self.assertRaisesRegex(TimeUp, "by 30 ms 'Bye' was not sent; there was b.hello 0"):
                board.serial.expect("Bye", timeout_us=30_000)

    @needs_arduino
    def test_typed_bytes_arrive_at_the_sketchs_speed_and_at_others(self):
        with Board(THERMOSTAT) as board:
            with self.assertRaisesRegex(
                BoardError, r"by 0 ms the sketch has sent nothing yet: say it as write\(.., baud=9600\)"
            ):
                board.serial.write("x")
            board.serial.expect("ready\r\n")
            self.assertEqual(board.serial.cycles_of_a_bit(), 136)
            for target, baud in [(123, None), (456, 115200), (789, 117647)]:
                board.serial.write(f"t{target}\n", baud)
                self.assertEqual(board.serial.line(timeout_us=5_000), f"target {target}")
            board.serial.write("hel")
            board.serial.write("lo\n")
            board.serial.flush()
            self.assertEqual(board.serial.line(timeout_us=2_000), "what?")

    @needs_arduino
    def test_the_speed_of_a_board_is_that_which_was_named(self):
        with Board(THERMOSTAT, baud=115200) as board:
            board.run(ms=5)  # Serial has begun
            board.serial.write("t9\n")
            board.serial.expect("target 9\r\n", timeout_us=10_000)
            self.assertAlmostEqual(board.serial.cycles_of_a_bit(), 138.89, delta=0.01)

    def test_a_board_without_input_types_nothing(self):
        with Board(HELLO, serial_input=False) as board:
            board.run(ms=1)
            with self.assertRaisesRegex(ValueError, r"nothing drives uno:0 here: Board\(folder, inputs=\['uno:0'\]\)"):
                board.serial.write("x", baud=9600)
            self.assertEqual(board.script, [])

    def test_what_was_sent_at_another_form_tells_no_speed(self):
        with Board(HELLO) as board:
            board.serial.all += b"Q"  # as if a byte had come that is not on the wire
            board.run(ms=5)
            with self.assertRaisesRegex(BoardError, "by 5 ms what the sketch has sent does not tell its speed"):
                board.serial.write("x")


@needs_serve
class Projects(unittest.TestCase):
    def test_attributes_of_parts_and_another_firmware(self):
        pot = os.path.join(EXAMPLES, "pot-serial")
        sent = []
        for value in (0, 1023):
            with Board(pot, attributes={"pot1": {"value": value}}) as board:
                board.run(ms=30)
                sent.append(board.serial.received)
        self.assertNotEqual(sent[0], sent[1])
        with self.assertRaisesRegex(ProjectError, "attributes: the diagram has no part 'pot9'; it has uno"):
            Board(pot, attributes={"pot9": {"value": 1}})
        with Board(BUTTON, firmware=os.path.join(HELLO, firmware_of(HELLO))) as board:
            board.serial.expect("hello", timeout_us=30_000)
        with tempfile.TemporaryDirectory() as folder:
            archive = shutil.make_archive(os.path.join(folder, "button"), "zip", BUTTON)
            with Board(archive) as board:
                board.run(ms=1)
                self.assertFalse(board.report.is_lit("led1"))
        with self.assertRaisesRegex(ProjectError, "none.hex: there is no such file"):
            Board(BUTTON, firmware="none.hex")


@needs_serve
class Truth(unittest.TestCase):
    @needs_gcc
    def test_a_halted_core_fails_a_board_unless_it_is_allowed(self):
        with tempfile.TemporaryDirectory() as folder:
            source = "int main(void) { ((void (*)(void))0x3800)(); for (;;) {} }\n"
            with open(f"{folder}/halts.c", "w", encoding="utf-8") as file:
                file.write(source)
            subprocess.run(
                ["avr-gcc", "-mmcu=atmega328p", "-g", "-Og", "-o", f"{folder}/halts.elf", f"{folder}/halts.c"],
                check=True,
            )
            with self.assertRaises(LeftOut) as caught:
                with Board(f"{folder}/halts.elf") as board:
                    board.run(ms=1)
                    self.assertTrue(board.report.is_halted)
            self.assertIn("uno: the core halted at word address 0x3800", str(caught.exception))
            self.assertIn("allow=[..] with one of: halt", str(caught.exception))
            self.assertIn("sent: b''", "".join(caught.exception.__notes__))
            with Board(f"{folder}/halts.elf", allow=["halt"]) as board:
                board.run(ms=1)
                self.assertEqual((board.report.mode, board.report.pc), ("halt", 0x3800))

    def test_a_board_that_never_ran_passes_nothing(self):
        with self.assertRaisesRegex(LeftOut, "the board did not run"):
            with Board(BUTTON):
                pass

    def test_a_word_that_allows_nothing_is_refused(self):
        with self.assertRaisesRegex(ValueError, "allow: 'hlat' names nothing"):
            Board(BUTTON, allow=["hlat"])

    def test_a_folder_that_is_no_project_is_refused_with_its_reason(self):
        with tempfile.TemporaryDirectory() as folder:
            with self.assertRaisesRegex(ProjectError, "diagram.json is missing"):
                Board(folder)
            with self.assertRaisesRegex(ProjectError, "No such file"):
                Board(f"{folder}/none.ino")

    def test_a_program_that_is_not_there(self):
        with self.assertRaisesRegex(ProgramError, "/none/program: No such file"):
            Board(BUTTON, program_path="/none/program")
        with self.assertRaisesRegex(ProgramError, "the live board's program ended with status 1"):
            Board(BUTTON, program_path="/bin/false")

    def test_a_program_without_live_boards(self):
        with tempfile.TemporaryDirectory() as folder:
            path = os.path.join(folder, "older")
            with open(path, "w", encoding="utf-8") as file:
                file.write("#!/bin/sh\necho 'words not understood' >&2\nexit 2\n")
            os.chmod(path, 0o755)
            with self.assertRaisesRegex(
                ProgramError, f"words not understood: {path} has no `serve`, or not these words: serve /"
            ):
                Board(BUTTON, program_path=path)


@needs_serve
class Requests(unittest.TestCase):
    def test_each_request_of_a_live_board(self):
        with Board(BUTTON) as board:
            live = board.live
            self.assertEqual(live.run(1600, ["edge uno.13"]).held, 1)
            live.set("btn1", 1)
            live.set("btn1", 0, live.now + 100)
            self.assertEqual(live.level("btn1.1.l"), "1")
            self.assertIn("input btn1 0\n", live.report())
            self.assertEqual(live.run(live.now + 50), (0, b""))
            self.assertIn("input btn1 1\n", live.report())
            self.assertEqual(live.wave(), os.path.getsize(board.project.vcd))

    def test_what_the_program_has_not_is_said(self):
        with Board(BUTTON) as board:
            with self.assertRaisesRegex(NotServed, "this program's `serve` has no request 'nonsense'"):
                board.live.ask("nonsense")
            with self.assertRaises(Refused) as caught:
                board.run_to(100, ["nonsense"])
            self.assertEqual((caught.exception.number, board.now), (101, 0))
            board.run(us=1)

    def test_more_conditions_than_a_run_takes_are_refused(self):
        with Board(BUTTON) as board:
            board.until(*[edge("uno:13")] * 16)
            with self.assertRaisesRegex(Refused, "101 RequestWords"):
                board.until(*[edge("uno:13")] * 17)


@needs_serve
class Ends(unittest.TestCase):
    def processes_of(self, box):
        """The processes of which a word is in a folder."""
        said = subprocess.run(["ps", "-eo", "pid=,args="], stdout=subprocess.PIPE, text=True, check=True).stdout
        return [line for line in said.splitlines() if box + "/" in line]

    def test_a_killed_test_leaves_no_live_board(self):
        for number in (signal.SIGKILL, signal.SIGTERM):
            text = f"""
                import sys
                sys.path.insert(0, {common.PACKAGE!r})
                from mudflatjar import Board
                board = Board({BUTTON!r})
                board.run(ms=1)
                print(board.box, flush=True)
                board.run(s=200)
                """
            words = [sys.executable, "-B", "-c", textwrap.dedent(text)]
            with subprocess.Popen(words, stdout=subprocess.PIPE, text=True) as process:
                try:
                    box = process.stdout.readline().rstrip()
                    self.addCleanup(shutil.rmtree, box)
                    time.sleep(0.3)
                    self.assertNotEqual(self.processes_of(box), [])
                finally:
                    process.send_signal(number)
            until = time.monotonic() + 60
            while self.processes_of(box) and time.monotonic() < until:
                time.sleep(0.1)
            self.assertEqual(self.processes_of(box), [])

    def test_closing_removes_what_it_made(self):
        board = Board(BUTTON)
        box = board.box
        self.assertTrue(os.path.isdir(box))
        board.close()
        board.close()
        self.assertFalse(os.path.exists(box))
        self.assertIsNotNone(board.live.process.returncode)


def read(path):
    with open(path, "rb") as file:
        return file.read()


def firmware_of(folder):
    return next(name for name in sorted(os.listdir(folder)) if name.endswith(".hex"))


if __name__ == "__main__":
    unittest.main()
