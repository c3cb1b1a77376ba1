"""Tests of what needs no program: times, reports, refusals, which program is run."""
import os
import unittest
from unittest import mock

import common
from mudflatjar import faults, program, report, serial, times


class Times(unittest.TestCase):
    def test_a_time_is_its_cycles(self):
        for text, cycles in [
            ("200ms", 3_200_000),
            ("1.5s", 24_000_000),
            ("30us", 480),
            ("30", 480),
            ("40cy", 40),
            ("62.5ns", 1),
        ]:
            self.assertEqual(times.cycles_of(text), cycles, text)

    def test_what_is_no_time_is_refused(self):
        for text in ["", "ms", "-1us", "1 ms", "1m", "1e3us", "1,5s"]:
            with self.assertRaisesRegex(ValueError, "is no time"):
                times.cycles_of(text)

    def test_a_cycle_is_shown_in_milliseconds(self):
        self.assertEqual(
            [times.shown(it) for it in (0, 1, 16_000, 193_000)], ["0 ms", "0.0001 ms", "1 ms", "12.0625 ms"]
        )


class Reports(unittest.TestCase):
    REPORT = report.Report(
        "cycles 16\nuno uno pc 0x0001 run\nled l1 on lit 2\ninput btn1 1\nlcd d 1 |Hello           |\nlcd d 2 |                |\n"
        "chip c alive\nchip c | one\nchip c |  two\n"
    )

    def test_facts(self):
        it = self.REPORT
        self.assertTrue(it.is_lit("l1"))
        self.assertEqual((it.times_lit("l1"), it.value("btn1")), (2, 1))
        self.assertEqual(it.lcd("d"), ["Hello" + 11 * " ", 16 * " "])
        self.assertEqual(it.printed("c"), ["one", " two"])

    def test_the_core(self):
        for line, facts in [
            ("uno board pc 0x01B7 run", ("run", False, 0x1B7)),
            ("uno board pc 0x0044 sleep", ("sleep", False, 0x44)),
            ("uno board pc 0x3800 halt 0xFFFF", ("halt", True, 0x3800)),
        ]:
            it = report.Report(f"cycles 16\nuno other ignored 0x61\n{line}\n")
            self.assertEqual((it.mode, it.is_halted, it.pc), facts)
        with self.assertRaisesRegex(faults.BoardError, "no line of the Uno's core; it has\n  cycles 16"):
            report.Report("cycles 16\n").mode

    def test_chips(self):
        it = report.Report("chip c alive\nchip d trap 9 at 20000\n")
        self.assertEqual((it.is_alive("c"), it.is_alive("d")), (True, False))

    def test_a_line_that_is_not_there(self):
        with self.assertRaisesRegex(faults.BoardError, "no line led l2; it has\n  cycles 16"):
            self.REPORT.is_lit("l2")


class Overlaps(unittest.TestCase):
    def test_how_much_of_a_text_has_come(self):
        for have, text, length in [
            (b"", b"abc", 0),
            (b"xab", b"abc", 2),
            (b"aab", b"aabaab", 3),
            (b"abc", b"abc", 3),
            (b"abx", b"abc", 0),
        ]:
            self.assertEqual(serial.overlap(have, text), length, (have, text))


class Speeds(unittest.TestCase):
    def test_the_cycles_of_a_bit(self):
        self.assertEqual([round(serial.cycles_at(it), 2) for it in (9600, 115200)], [1666.67, 138.89])
        for baud in (0, -9600):
            with self.assertRaisesRegex(ValueError, f"a speed of {baud} bits a second types nothing"):
                serial.cycles_at(baud)


class Programs(unittest.TestCase):
    def test_which_one_is_run(self):
        with mock.patch.dict(os.environ, {"MUDFLATJAR": "/a", "PROGRAM": "/b"}):
            self.assertEqual([program.program("/c"), program.program()], ["/c", "/a"])
        with mock.patch.dict(os.environ, {"MUDFLATJAR": "", "PROGRAM": "/b"}):
            self.assertEqual(program.program(), "/b")
        with mock.patch.dict(os.environ, {"MUDFLATJAR": "", "PROGRAM": ""}):
            self.assertTrue(os.path.isfile(program.program()))

    def test_where_there_is_none(self):
        with mock.patch.dict(os.environ, {"MUDFLATJAR": "", "PROGRAM": "", "PATH": ""}):
            with mock.patch.object(program, "places", lambda: []):
                with self.assertRaisesRegex(
                    faults.ProgramError, "there is no program to run boards with; the environment"
                ):
                    program.program()
            with mock.patch.object(program, "runs_here", lambda: False):
                with self.assertRaisesRegex(
                    faults.ProgramError, "run boards with: that of the release is for Linux on x86-64;"
                ):
                    program.program()


class Refusals(unittest.TestCase):
    def test_what_a_program_has_not_is_its_own_exception(self):
        for request, text in [
            ("core", "this program's `serve` has no request 'core': it answers with 100 RequestUnknown"),
            ("run 5 halted", "this program's `serve` has not all conditions of 'run 5 halted': it answers with 100"),
        ]:
            it = faults.refused(request, 100, "RequestUnknown")
            self.assertIsInstance(it, faults.NotServed)
            self.assertIn(text, str(it))
            self.assertEqual((it.request, it.number, it.name), (request, 100, "RequestUnknown"))

    def test_a_refusal_says_why(self):
        it = faults.refused("set b 2", 105, "RequestValue")
        self.assertNotIsInstance(it, faults.NotServed)
        self.assertEqual(str(it), "'set b 2' was refused with 105 RequestValue: the part takes no value as large")


if __name__ == "__main__":
    unittest.main()
