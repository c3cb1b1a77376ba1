#!/usr/bin/env python3
"""Tests of wrong.py, times.py and wide.py, on small made-up repositories, and of how bench/instructions.sh compares; no prover runs."""
import contextlib
import io
import pathlib
import subprocess
import sys
import tempfile
import unittest

sys.path.insert(0, str(pathlib.Path(__file__).resolve().parent))
sys.dont_write_bytecode = True
import times
import wide
import wrong

SOURCE = """//! Two calls.
#[inline]
pub fn half(x: u8) -> u8
    ensures { result ≡ x / 2 }
{
    x / 2
}

pub fn quarter(x: u8) -> u8 {
    half(half(x))
}
"""


class Repository(unittest.TestCase):
    def setUp(self):
        room = tempfile.TemporaryDirectory()
        self.addCleanup(room.cleanup)
        self.top = pathlib.Path(room.name)
        self.write("crates/one/src/lib.rt", SOURCE)

    def write(self, name, text):
        path = self.top / name
        path.parent.mkdir(parents=True, exist_ok=True)
        path.write_text(text)

    def edit(self, name, file, *pairs):
        lines = [f"file: {file}", *(f"{word}: {text}" for word, text in zip(["old", "new"] * len(pairs), pairs))]
        self.write(f"{name}.edit", "\n".join(lines) + "\n")

    def both(self):
        """A wrong body of the gate, and one beside it."""
        self.edit("crates/one/must-fail/a_third", "src/lib.rt", "    x / 2", "    x / 3")
        self.edit("tools/gate/wrong/one/one_half", "src/lib.rt", "half(half(x))", "half(x)")

    def quiet(self, function, *words):
        out, err = io.StringIO(), io.StringIO()
        with contextlib.redirect_stdout(out), contextlib.redirect_stderr(err):
            answer = function(*words)
        return answer, out.getvalue() + err.getvalue()


class Edits(Repository):
    def why(self, name):
        return wrong.Edit(self.top, self.top / f"{name}.edit", "one").apply()[1]

    def test_an_edit_that_applies(self):
        self.edit("e", "src/lib.rt", "half(half(x))", "half(x)", "half(x)", "half(x) + 1")
        texts, why = wrong.Edit(self.top, self.top / "e.edit", "one").apply()
        self.assertIsNone(why)
        self.assertEqual(texts["src/lib.rt"], SOURCE.replace("half(half(x))", "half(x) + 1"))

    def test_what_keeps_an_edit_from_being_applied(self):
        self.edit("twice", "src/lib.rt", "x / 2", "x / 3")
        self.edit("never", "src/lib.rt", "x / 9", "x / 3")
        self.edit("lost", "src/main.rt", "x", "y")
        self.edit("empty", "src/lib.rt")
        self.assertEqual(self.why("twice"), "this is there 2 times: x / 2")
        self.assertEqual(self.why("never"), "this is there 0 times: x / 9")
        self.assertEqual(self.why("lost"), "there is no crates/one/src/main.rt")
        self.assertEqual(self.why("empty"), "it replaces nothing")

    def test_the_gate_is_looked_at(self):
        self.both()
        self.write("tools/gate/goals.txt", "# head\none/gone half: returns\n")
        bad, said = self.quiet(wrong.look, self.top)
        self.assertTrue(bad)
        self.assertIn("one/gone: there is no such wrong body", said)
        self.write("tools/gate/goals.txt", "# head\n")
        bad, said = self.quiet(wrong.look, self.top)
        self.assertFalse(bad)
        self.assertIn("1 wrong bodies in the gate, 1 of them without a kept goal, 1 beside it, 0 faults", said)
        for i in range(wrong.MOST):
            self.edit(f"crates/one/must-fail/more_{i}", "src/lib.rt", "half(half(x))", "half(x)")
        self.assertTrue(self.quiet(wrong.look, self.top)[0])


RETURNS = "note: src/lib.rt:2:1: it is not proved that what the function ensures holds when it returns (`returns`); the facts"
CALL = "note: src/lib.rt:10:5: it is not proved that what `half` requires holds at this call (`half-requires`); the facts"


class Goals(Repository):
    def setUp(self):
        super().setUp()
        self.both()
        self.gate, self.beside = wrong.edits_of(self.top)

    def test_goals_name_the_function_and_no_line(self):
        goal = lambda said: wrong.goal_of(self.gate[0], said)
        self.assertEqual(goal(RETURNS), "half: returns")
        self.assertEqual(goal(CALL), "quarter: half-requires")
        self.assertEqual(goal("./proofs/half/Answers.antt:10:3: error: `returns`: expected type"), "half: returns")
        self.assertEqual(goal("proofs/HalfLemmas.antt:7:1: error: `halves`: no"), "proofs/HalfLemmas.antt: halves")
        self.assertEqual(goal("proofs/half/Answers.antt:10:3: error: this is no proof"), "half: this is no proof")
        self.assertEqual(goal(""), "-")

    def line(self, said, name="one/a_third"):
        return f"rt: must-fail {name}.edit: {said}\n"

    def test_what_the_toolchain_prints(self):
        refused = "refused, as it must be"
        by_name = f"{refused} (only because a proof file names what the edit took away, so this says little): proofs/x.antt:1:1: error"
        limit = f"{refused} (only by a limit of the prover, which gave no verdict, so: choose another): {RETURNS}"
        told = lambda said: wrong.told(self.line(said), self.gate)
        self.assertEqual(told(f"{refused}: {RETURNS}"), ({"one/a_third": "half: returns"}, {}))
        self.assertEqual(told(limit), ({"one/a_third": "at a limit of the prover, half: returns"}, {}))
        self.assertEqual(told(refused), ({"one/a_third": "-"}, {}))
        self.assertEqual(list(told(by_name)[1]), ["one/a_third"])
        for said in ("NOT REFUSED: the crate is still proved", "BAD EDIT: it changes nothing", "NOT TRIED: its check was killed"):
            self.assertEqual(told(said), ({}, {"one/a_third": said}))
        self.assertEqual(wrong.told(self.line(f"{refused}: {RETURNS}", "two/else"), self.gate), ({}, {}))

    def test_goals_are_kept_and_compared(self):
        text = self.line(f"refused, as it must be: {RETURNS}")
        self.write("tools/gate/goals.txt", "# head\n")
        bad, said = self.quiet(wrong.compare, self.top, self.gate, text, True)
        self.assertTrue(bad)
        self.assertIn("one/a_third: refused at half: returns, and tools/gate/goals.txt has no goal of it", said)
        self.assertEqual((self.top / "tools/gate/goals.txt").read_text(), "# head\none/a_third half: returns\n")
        self.assertFalse(self.quiet(wrong.compare, self.top, self.gate, text, False)[0])
        bad, said = self.quiet(wrong.compare, self.top, self.gate, text.replace(RETURNS, CALL), False)
        self.assertTrue(bad)
        self.assertIn("one/a_third: refused at quarter: half-requires, before at half: returns", said)
        self.assertIn("nothing was said of it", self.quiet(wrong.compare, self.top, self.gate, "", False)[1])


class Times(Repository):
    KEPT = """# Head

| crate | proof | wrong bodies | | program | sum |
|---|---|---|---|---|---|
| `low` | 100 | 90 | of 2 |  | 190 |
| `side` | 50 |  |  |  | 50 |
| `top` | 30 |  |  | 20 | 50 |
| all | 180 | 90 | of 2 | 20 | 290 |

Tail.
"""
    PRINTED = """| crate | proof | tests | wrong bodies | program | sum |
|---|---|---|---|---|---|
| `low` | 200 | - | 180 | - | 380 |
| `side` | 130 | - | - | - | 130 |
| `top` | 60 | - | - | 40 | 100 |
| all | 390 | - | 180 | 40 | 610 |
"""

    def setUp(self):
        super().setUp()
        self.write("crates.txt", "# NAME: DEP ..\nlow: std\nside:\ntop: low side\n")
        for name in ("a", "b"):
            self.write(f"crates/low/must-fail/{name}.edit", "")

    def test_both_tables_are_read(self):
        self.assertEqual(times.read(self.KEPT)["top"], {"proof": 30, "tests": 0, "wrong bodies": 0, "program": 20})
        self.assertEqual(times.read(self.PRINTED)["low"], {"proof": 200, "tests": 0, "wrong bodies": 180, "program": 0})
        self.assertEqual(times.counts_of(self.KEPT), {"low": 2})

    def test_the_longest_chain(self):
        self.assertEqual(times.listed(self.top), {"low": [], "side": [], "top": ["low", "side"]})
        self.assertEqual(times.longest_chain(times.listed(self.top), {"low": 1, "side": 3, "top": 1}), (4, ("side", "top")))

    def test_what_got_dearer_on_a_machine_of_half_the_speed(self):
        middle, dearer = times.compare(times.read(self.PRINTED), times.read(self.KEPT), lambda _: True)
        self.assertEqual(middle, 2)
        self.assertEqual(dearer, [("proof", "side", 50, 130)])

    def test_what_is_told(self):
        taken = times.read(self.PRINTED)
        said = self.quiet(times.tell, taken, times.read(self.KEPT), self.top, times.counts_of(self.KEPT))[1]
        self.assertIn("the longest chain takes 5 minutes: low 200, top 100\n", said)
        self.assertIn("dearer: side, proof: 130 s, kept 50 s, 1.30 times beside the middle\n", said)
        del taken["top"]
        said = self.quiet(times.tell, taken, times.read(self.KEPT), self.top, {})[1]
        self.assertIn("low 200, top 50\n", said)
        self.assertIn("not proved in this run, so with the kept seconds: top\n", said)
        self.write("crates.txt", "low:\ntop: low\n")
        said = self.quiet(times.tell, taken, times.read(self.KEPT), self.top, {})[1]
        self.assertIn("no longer there: side 50 s\n", said)

    def test_figures_are_kept(self):
        text = times.figures(self.KEPT, times.read(self.PRINTED), self.top)
        self.assertEqual(text.splitlines()[0], "# Head")
        self.assertEqual(text.splitlines()[-1], "Tail.")
        self.assertIn("| `low` | 200 | 180 | of 2 |  | 380 |\n| `side` | 130 |  |  |  | 130 |\n| `top` | 60 |  |  | 40 | 100 |\n| all | 390 | 180 | of 2 | 40 | 610 |\n", text)
        again = times.figures(text, {"top": {"proof": 90, "tests": 0, "wrong bodies": 0, "program": 0}}, self.top)
        self.assertIn("| `top` | 90 |  |  | 40 | 130 |", again)
        self.assertIn("| `low` | 200 | 180 | of 2 |  | 380 |", again)
        self.write("crates/low/must-fail/c.edit", "")
        self.assertIn("| `low` | 200 |  | of 3 |  | 200 |", times.figures(text, {}, self.top))

    def test_words(self):
        self.assertEqual(times.words_of(["--keep", "rt", "ci"]), ({"--than": None, "--read": None, "--keep": True}, ["rt", "ci"]))
        self.assertEqual(times.words_of(["--read", "f"])[0]["--read"], "f")
        for words in ([], ["--read"], ["--read", "f", "rt"]):
            with self.assertRaises(SystemExit):
                times.words_of(words)

    def test_processes_by_kind(self):
        self.assertEqual(times.kind_of(["rattle", "check"], "/r/rt-edit-1-x"), "wrong bodies")
        self.assertEqual(times.kind_of(["rattle", "build", "--test"], "/r"), "tests")
        self.assertEqual(times.kind_of(["rattle", "build", "-o", "out/a.o"], "/r"), "program")
        self.assertEqual(times.kind_of(["rattle", "build", "-o", "out/a.rlib"], "/r"), "proof")


class Wide(Repository):
    def function(self, parameters, clauses, body="{\n    0\n}", generics=""):
        head = ", ".join(f"p{i}: &mut Map<u8, [u8; 4]>" for i in range(parameters))
        lines = [f"fn f{generics}({head}) -> u8", *(f"    ensures c{i} {{ (n : _)\n        → result ≡ n }}" for i in range(clauses))]
        return "\n".join([*lines, body]) + "\n" if clauses else f"{lines[0]} {body}\n"

    def said(self, text, *words):
        self.write("crates/one/src/lib.rt", text)
        (status, text) = self.quiet(wide.main, list(words) or ["one"], self.top)
        return status, text.splitlines()

    def test_bounds(self):
        self.assertEqual(self.said(self.function(7, 8)), (0, ["0 with more than 7 parameters or 8 clauses"]))
        self.assertEqual(self.said(self.function(8, 0))[1][0], "crates/one/src/lib.rt:1: f has 8 parameters and 0 clauses")
        self.assertEqual(self.said(self.function(0, 9))[1][0], "crates/one/src/lib.rt:1: f has 0 parameters and 9 clauses")

    def test_each_function_has_its_own_clauses(self):
        text = self.function(1, 5) + "\n/// Another.\n#[inline]\n" + self.function(8, 4, generics="<F: Fn(u8) -> u8, L>")
        self.assertEqual(self.said(text)[1][0], "crates/one/src/lib.rt:18: f has 8 parameters and 4 clauses")
        trait = "trait T {\n" + self.function(2, 5, body=";") + self.function(2, 5, body=";") + "}\n"
        self.assertEqual(self.said(trait)[1], ["0 with more than 7 parameters or 8 clauses"])

    def test_a_list_over_lines(self):
        text = "pub(crate) fn f(\n    &mut self,\n" + "".join(f"    p{i}: u8,\n" for i in range(7)) + ")\n    requires { 0 < p0 }\n{\n}\n"
        self.assertEqual(self.said(text)[1][0], "crates/one/src/lib.rt:1: f has 8 parameters and 1 clauses")

    def test_a_crate_that_is_not_there(self):
        self.assertEqual(self.said("", "two"), (2, ["there is no crate two"]))


class Instructions(Repository):
    SCRIPT = wrong.TOP / "bench/instructions.sh"
    KEPT = """# Head
what per old
spin cycle 100
ring cycle 5.00
"""

    def setUp(self):
        super().setUp()
        self.write("kept", self.KEPT)

    def said(self, today, *words):
        self.write("today", today)
        command = [self.SCRIPT, "--kept", self.top / "kept", "--from", self.top / "today", *words]
        ended = subprocess.run(command, capture_output=True, text=True)
        return ended.returncode, [line.split() for line in ended.stdout.splitlines()], ended.stdout + ended.stderr

    def test_what_got_dearer(self):
        status, rows, text = self.said("spin cycle 101.10\nring cycle 5.05\nnew move 7\n")
        self.assertEqual(status, 1)
        self.assertEqual(rows[:4], [["what", "per", "old", "now", "ratio"], ["spin", "cycle", "100", "101.10", "1.011"], ["ring", "cycle", "5.00", "5.05", "1.010"], ["new", "move", "-", "7", "-"]])
        self.assertTrue(text.endswith("dearer by more than 1 %:\n  spin: 101.10, kept 100, 1.011 times\n"))
        self.assertEqual(self.said("spin cycle 90\n")[0], 0)

    def test_figures_are_kept(self):
        self.said("spin cycle 90.00\nnew move 7\n", "--keep", "young")
        kept = (self.top / "kept").read_text().splitlines()
        self.assertEqual(kept[0], "# Head")
        rows = [["what", "per", "old", "young"], ["spin", "cycle", "100", "90.00"], ["ring", "cycle", "5.00", "-"], ["new", "move", "-", "7"]]
        self.assertEqual([line.split() for line in kept[1:]], rows)
        self.said("ring cycle 4\n", "--keep", "young")
        self.assertIn(["ring", "cycle", "5.00", "4"], [line.split() for line in (self.top / "kept").read_text().splitlines()])
        self.assertEqual(self.said("spin cycle 95\n")[0], 1)
        self.assertEqual(self.said("spin cycle 95\n", "--than", "old")[0], 0)

    def test_words_that_are_not_understood(self):
        status, _, text = self.said("", "--than", "older")
        self.assertEqual(status, 2)
        self.assertIn("there are no kept figures of older", text)
        self.assertEqual(self.said("", "--what")[0], 2)
        self.assertEqual(self.said("", "--than")[0], 2)


if __name__ == "__main__":
    unittest.main()
