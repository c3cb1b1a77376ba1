#!/usr/bin/env python3
"""Tests of names.py, commands.py and links.py, on small made-up repositories."""
import contextlib
import io
import pathlib
import sys
import tempfile
import unittest

sys.path.insert(0, str(pathlib.Path(__file__).resolve().parent))
sys.dont_write_bytecode = True
import commands
import links
import names

SOURCE = """//! A crate.
pub struct Half;

impl Half {
    pub fn of(x: u8) -> u8
        ensures value { result ≡ half x }
    {
        x / 2
    }
}

pub fn other(x: u8) -> u8
    ensures same { result ≡ x }
{
    x
}
"""
SPEC = """-- What half is.
abbrev pub half : ℕ → ℕ
half x = x / 2
pub record IsHalf (x : ℕ) : Type 0 where
"""
PROVED = """# What is proved

Clauses of `low::of`; the definitions are those of `low`: Half.

| promise | clause | definition |
|---|---|---|
| a sentence (IsHalf) about `half` | `value` | half |

## Layer by layer

| promise | clause | definition |
|---|---|---|
| half | `low`: `Half::of`, `other` (`same`); `top`: `Twice` as a `Half` | `low`: Half (half, IsHalf) |

`tools/there.sh` and `there.sh` are files.
"""
UNO = """# Uno

| section | definition | law | rows |
|---|---|---|---|
| "Half" | `low`: Half (`half`) | `half`; `half_law` of `low` | `half.rows`; `run.rows`: blink |

| address | register | what it does |
|---|---|---|
| 0x44, 0x46 to 0x47 | `ONE`, `TWO`, `THREE`: bits | |
"""


class Repository(unittest.TestCase):
    def setUp(self):
        room = tempfile.TemporaryDirectory()
        self.addCleanup(room.cleanup)
        self.top = pathlib.Path(room.name)
        self.write("crates.txt", "# NAME: DEP\nlow: std\ntop: low\nunit_rows: low\nsim_rows: low\n")
        self.write("crates/low/src/lib.rt", SOURCE)
        self.write("crates/low/specs/Half.antt", SPEC)
        self.write("crates/low/proofs/HalfLaw.antt", "pub half_law : (x : ℕ) → IsHalf x\n")
        self.write("crates/avr_unit/src/registers.rt", "pub const ONE: u8 = 0x44;\npub const TWO: u8 = 0x46;\n        0x47 => Some(Register::THREE),\n")
        self.write("crates/top/src/lib.rt", "pub struct Twice;\n")
        self.write("crates/rows_units/data/half.rows", "")
        self.write("crates/sim_rows/data/run.rows", "files blink.hex\n")
        self.write("tools/there.sh", "echo one\n")
        self.write("docs/PROVED.md", PROVED)
        self.write("docs/UNO.md", UNO)

    def write(self, name, text):
        path = self.top / name
        path.parent.mkdir(parents=True, exist_ok=True)
        path.write_text(text)


class Names(Repository):
    def bad(self, page="PROVED.md"):
        return names.Page(self.top, page).read()

    def test_all_that_is_named_is_there(self):
        self.assertEqual(self.bad(), [])
        self.assertEqual(self.bad("UNO.md"), [])

    def test_what_is_renamed_is_found(self):
        renamed = [
            ("src/lib.rt", SOURCE, "ensures value", "docs/PROVED.md:7: there is no `ensures value` in low::of"),
            ("src/lib.rt", SOURCE, "ensures same", "docs/PROVED.md:13: there is no `ensures same` in low::other"),
            ("src/lib.rt", SOURCE, "struct Half", "docs/PROVED.md:13: there is no Half::of in crates/low/src"),
            ("src/lib.rt", SOURCE, "fn other", "docs/PROVED.md:13: there is no other in crates/low/src"),
            ("specs/Half.antt", SPEC, "pub half", "docs/PROVED.md:7: there is no half in low: Half"),
            ("specs/Half.antt", SPEC, "record IsHalf", "docs/PROVED.md:13: there is no IsHalf in crates/low/specs/Half.antt"),
        ]
        for file, text, old, said in renamed:
            self.write(f"crates/low/{file}", text.replace(old, f"{old}_of_before"))
            self.assertIn(said, self.bad(), old)
            self.write(f"crates/low/{file}", text)

    def test_what_is_not_there_is_found(self):
        for old, new, said in [
            ("`low`: Half (half, IsHalf)", "`law`: Half", "docs/PROVED.md:13: there is no law in crates/"),
            ("`low`: Half (half, IsHalf)", "`low`: Halves", "docs/PROVED.md:13: there is no Halves.antt in crates/low/specs"),
            ("as a `Half`", "as a `Part`", "docs/PROVED.md:13: there is no Part in a crate that top uses"),
            ("about `half`", "about `thirds`", "docs/PROVED.md:7: there is no thirds in low and what they use"),
            ("`tools/there.sh`", "`tools/gone.sh`", "docs/PROVED.md:15: there is no tools/gone.sh in this repository"),
            ("and `there.sh`", "and `gone.sh`", "docs/PROVED.md:15: there is no gone.sh in any crate, and no file"),
        ]:
            self.write("docs/PROVED.md", PROVED.replace(old, new))
            self.assertIn(said, self.bad(), old)

    def test_a_tour_of_the_crates(self):
        tour = "`Half::of` of `low` (`impl Half`, `Half<X>`, `specs/Half.antt`), whose `calm` is a field; `IsHalf`, `lib.rt` and `half_law`.\n"
        self.write("crates/low/src/part.rt", "pub(crate) struct Part {\n    pub(crate) calm: u8,\n}\n")
        for old, new, found in [
            ("", "", []),
            ("`calm`", "`wild`", ["wild"]),
            ("`Half::of`", "`Half::off`", ["Half::off"]),
            ("`impl Half`", "`impl Third`", ["impl Third"]),
            ("`specs/Half.antt`", "`specs/Third.antt`", ["specs/Third.antt"]),
        ]:
            self.write("docs/TOUR.md", tour.replace(old, new))
            said = [f"docs/TOUR.md:1: there is no {name} in any crate, and no file" for name in found]
            self.assertEqual(names.Tour(self.top, "TOUR.md").read(), said)

    def test_the_files_of_a_guide(self):
        guide = "`specs/Half.antt` and `Half.antt` of `crates/low`, `tools/*.sh`; `crates/NAME`, `target/made` and `half.of` are no files.\n"
        for old, new, found in [
            ("", "", []),
            ("`specs/Half.antt`", "`specs/Third.antt`", ["specs/Third.antt"]),
            ("`Half.antt`", "`Third.antt`", ["Third.antt"]),
            ("`crates/low`", "`crates/high`", ["crates/high"]),
            ("`tools/*.sh`", "`tools/*.js`", ["tools/*.js"]),
        ]:
            self.write("GUIDE.md", guide.replace(old, new))
            said = [f"GUIDE.md:1: there is no {name} in the repository" for name in found]
            self.assertEqual(names.Guide(self.top, "GUIDE.md").read(), said)

    def test_rows_and_laws(self):
        for old, new, said in [
            ("| `half`; ", "| `half_laws`; ", "docs/UNO.md:5: there is no half_laws in specs/ and proofs/ of low"),
            ("`half.rows`", "`third.rows`", "docs/UNO.md:5: there is no third.rows in crates/rows_units/data"),
            (": blink", ": blank", "docs/UNO.md:5: there is no blank.hex in crates/sim_rows/data/run.rows"),
            ("0x44, ", "0x45, ", "docs/UNO.md:9: there is no ONE at 0x45 in the crates of the microcontroller"),
            ("0x46 to 0x47", "0x46", "docs/UNO.md:9: there is no address for each of `ONE`, `TWO`, `THREE`: bits in 0x44, 0x46"),
        ]:
            self.write("docs/UNO.md", UNO.replace(old, new))
            self.assertEqual(self.bad("UNO.md"), [said])


README = """# Page

    tools/there.sh >said.txt
    cat <said.txt

writes, as `./mudflatjar` is only a name and `./mudflatjar --version` is a command,

    one

and `./mudflatjar run FOLDER --us N` is a form.
"""


class Commands(Repository):
    def setUp(self):
        super().setUp()
        self.write("tools/there.sh", "#!/bin/sh\necho one\n")
        self.write("mudflatjar", '#!/bin/sh\nexec "$(dirname "$0")/dist/mudflatjar" "$@"\n')
        self.write("dist/mudflatjar", '#!/bin/sh\n[ "$1 $2" != "run --help" ] || echo "run FOLDER --us N"\n')
        for name in ("tools/there.sh", "mudflatjar", "dist/mudflatjar"):
            (self.top / name).chmod(0o755)

    def page(self, text, rules=""):
        page = commands.Page("README.md", text, self.top, commands.rules_of(rules))
        with tempfile.TemporaryDirectory() as work:
            ran = page.run(pathlib.Path(work), {"PATH": "/usr/bin:/bin"})
        return ran, page.bad

    def test_pieces_of_a_page(self):
        found = commands.pieces(README)
        self.assertEqual([kind for _, kind, _ in found], ["block", "inline", "block", "inline"])
        self.assertEqual(found[0], (3, "block", ["tools/there.sh >said.txt", "cat <said.txt"]))
        self.assertEqual(found[1], (6, "inline", "./mudflatjar --version"))

    def test_forms(self):
        for command in ("./mudflatjar run FOLDER --us N", "sdk/build.sh -o NAME.chip.wasm", "x OUT/y", "x [--open]", "x .."):
            self.assertTrue(commands.is_form(command), command)
        for command in ("./mudflatjar run examples/x --us 30", "A=b ./x", "rm sdk/toggle/README.md", "x -O2 a.S"):
            self.assertFalse(commands.is_form(command), command)

    def test_a_page_that_is_as_it_says(self):
        self.assertEqual(self.page(README), (4, []))

    def test_a_command_that_fails(self):
        ran, bad = self.page(README.replace("there.sh >", "gone.sh >").replace("    tools/gone.sh", "    cp tools/gone.sh x; tools/there.sh"))
        self.assertEqual(bad, [])
        ran, bad = self.page(README.replace("cat <said.txt", "cat <gone.txt"))
        self.assertEqual(len(bad), 1)
        self.assertTrue(bad[0].startswith("README.md:3: status "), bad)

    def test_a_form_with_another_option(self):
        bad = self.page(README.replace("--us N", "--ms N"))[1]
        self.assertIn("./mudflatjar run --help does not have --ms", bad[0])

    def test_a_text_that_nothing_writes(self):
        text = README.replace("    one\n", "    two\n")
        self.assertEqual(self.page(text)[1], ["README.md:8: no command of the page writes this line: two"])
        self.assertEqual(self.page(text, "README.md | two | text: a reason")[1], [])

    def test_rules(self):
        rules = "README.md | cat | not run: a reason\n"
        self.assertEqual(self.page(README.replace("cat <said.txt", "cat <gone.txt"), rules), (3, []))
        with contextlib.redirect_stderr(io.StringIO()) as said:
            self.assertEqual(self.page(README, "README.md | cat | if: false\n"), (3, []))
        self.assertIn("README.md:3: skipped, since this fails: false", said.getvalue())
        self.assertEqual(self.page(README.replace("cat <said.txt", "cat <made.txt"), "README.md | cat | before: echo one >made.txt\n"), (4, []))
        with self.assertRaises(ValueError):
            commands.rules_of("README.md | cat | perhaps: so\n")


class Links(unittest.TestCase):
    def faults(self, text):
        with tempfile.TemporaryDirectory() as room:
            top = pathlib.Path(room)
            (top / "docs").mkdir()
            (top / "target").mkdir()
            (top / "target/OTHER.md").write_text("[gone](GONE.md)")
            (top / "docs/TWO.md").write_text("# Two\n\n## A part's `name`, and [more](TWO.md)\n\n```\n## no heading\n```\n")
            (top / "README.md").write_text(f"# One\n\n{text}\n")
            return links.faults(top)

    def test_links_that_lead_somewhere(self):
        text = "[a](docs/TWO.md) [b](docs/TWO.md#a-parts-name-and-more) [c](#one) [d](https://example.org/x) `[e](GONE.md)` ![f](docs)"
        self.assertEqual(self.faults(text), (5, []))

    def test_links_that_lead_nowhere(self):
        text = "[a](docs/THREE.md) [b](docs/TWO.md#no-heading) [c](#two)"
        bad = ["there is no docs/THREE.md", "there is no heading docs/TWO.md#no-heading", "there is no heading #two"]
        self.assertEqual(self.faults(text), (4, [f"README.md: {it}" for it in bad]))


if __name__ == "__main__":
    unittest.main()
