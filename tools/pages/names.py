#!/usr/bin/env python3
"""Looks whether what docs/PROVED.md and docs/UNO.md name is where they say it is: crates, clauses, calls, definitions, laws,
rows and files; and whether what docs/ARCHITECTURE.md and docs/ENGINE.md name, and the files that
CONTRIBUTING.md names, are there at all. Says each name that is not there, and then ends with 1.

How the pages name things:
  `crate`: Name (a, b), Other   modules of crates/crate/specs, and definitions in the first of them
  Name                          a definition in the modules that the section's text names
  `crate`: `call`, `Type::call` what crates/crate/src has; a name in brackets after a call is a clause of it, or a file
                                there. After "as" and "an" stands a trait or type of a crate that this one uses
  `clause`                      an `ensures clause {` of the call that the section's text names as `crate::call`
  0x44 to 0x46 | `A`, `B`       registers at these addresses: the value of the constant or the arm of `Register` of that name
  `law`, (Law, OtherLaw)        in a row: a definition, lemma, module, call or clause of a crate that the row names, or of
                                one that this uses; in a sentence outside tables: of any crate, or a file
In the other two pages `name`, `impl Name` and `Name<..>` are of any crate, also a field, or a file, whose path may begin in a
crate.
"""
import pathlib
import re
import sys

TOP = pathlib.Path(__file__).resolve().parents[2]
DECLARED = re.compile(r"\bpub (?:record |data |def )?([A-Za-z_][\w'-]*)")
ITEM = re.compile(r"\b(?:fn|struct|enum|trait|type|const|mod) ([A-Za-z_]\w*)")
CLAUSE = re.compile(r"\bensures\*? ([A-Za-z_]\w*) \{")
CONSTANT = re.compile(r"(?:\bconst |^ +)([A-Z]\w*)(?:: u8|: u16|) = (0x[0-9A-F]+|\d+)[;,]", re.M)
ARM = re.compile(r"^ +(0x[0-9A-F]+) => (?:Some\()?Register::(\w+)", re.M)
FIELD = re.compile(r"^ +(?:pub(?:\([^)]*\))? |ghost )?(\w+):", re.M)
VARIANT = re.compile(r"^ +([A-Z]\w*)(?:\(.*\)|)(?: = .*)?,$", re.M)
QUOTED = re.compile(r"`([^`]+)`")
# a path, or a name with an ending
FILE = re.compile(r"[\w.*-]+(?:/[\w.*-]*)+|[\w-]+\.(?:rt|antt|rows|py|c|S|h|js|json|sh|md|txt|edit)")
GROUPED = re.compile(r"\(([A-Z][a-z]+\w*(?:, [A-Z][a-z]+\w*)*)\)")
# words of the program, of the toolchain and of the documents that the pages go by, which no crate has
WORDS = set("- accepted arrayvec axioms= bare check chipInit clap crate crates/crate/specs/Name.antt ensures examples".split()) | set(
    "expected/ ignored indexmap itoa make module out proofs/ rattle-kit-13b rattle-kit-13f replay requires run same serde_json".split()) | set(
    "specs/ std thiserror toml .out .pull".split()) | {"rt ci", "ensures NAME {"}
# a register of the data sheet, or an instruction
REGISTER = re.compile(r"[A-Z][A-Z0-9]+[xn]?")


class Crate:
    """The names that a crate has."""

    def __init__(self, folder):
        self.specs = {path.stem: self.declared(path) for path in folder.glob("specs/*.antt")}
        self.proofs = {path.stem: self.declared(path) for path in folder.glob("proofs/*.antt")}
        self.clauses = {}
        items, self.constants = set(), {}
        for path in folder.glob("src/**/*.rt"):
            for name, value in [*CONSTANT.findall(path.read_text()), *((it, at) for at, it in ARM.findall(path.read_text()))]:
                self.constants.setdefault(name, set()).add(int(value, 0))
            name = None
            for line in path.read_text().splitlines():
                line = line.partition("//")[0]
                items.update(ITEM.findall(line))
                name = (re.findall(r"\bfn (\w+)", line) or [name])[-1]
                for clause in CLAUSE.findall(line):
                    self.clauses.setdefault(name, set()).add(clause)
            items.update(VARIANT.findall(path.read_text()))
        self.items = items

    @staticmethod
    def declared(path):
        return set(DECLARED.findall(path.read_text()))

    def has(self, name):
        """Whether the crate has anything of this name."""
        modules = {**self.proofs, **self.specs}
        known = [self.items, modules, *self.specs.values(), *self.proofs.values(), *self.clauses.values()]
        return all(any(it in names for names in known) for it in name.split("::"))


class Anywhere:
    """What a sentence outside tables may name: anything of any crate, and any file's name."""

    def __init__(self, top, crates):
        self.crates, self.files = crates, {path.name for path in top.rglob("*") if path.is_file()}

    def has(self, name):
        return name in self.files or any(crate.has(name) for crate in self.crates.values())


class Page:
    """A page of a repository, and what it names that is not there."""

    where = "docs/"

    def __init__(self, top, name):
        self.top, self.name = top, name
        self.crates = {path.name: Crate(path) for path in (top / "crates").iterdir() if path.is_dir()}
        self.uses = self.uses_of(top / "crates.txt")
        self.anywhere = Anywhere(top, self.crates)
        self.bad, self.found, self.line = [], 0, 0

    @staticmethod
    def uses_of(path):
        lines = [line.partition(":") for line in path.read_text().splitlines() if line and not line.startswith("#")]
        return {head.split()[0]: set(rest.split()) for head, _, rest in lines}

    def must(self, is_there, name, where):
        self.found += 1
        if not is_there:
            self.bad.append(f"{self.where}{self.name}:{self.line}: there is no {name} in {where}")
        return is_there

    def crate(self, name):
        self.must(name in self.crates, name, "crates/")
        return self.crates.get(name)

    # ---- the columns of a table

    def definition(self, cell, given):
        """`crate`: Name (a, b), Other; Name"""
        for group in filter(None, (it.strip() for it in cell.split(";"))):
            named = re.fullmatch(r"`(\w+)`(?:: (.*))?", group)
            crate = named[1] if named else None
            if named and not self.crate(crate):
                continue
            for name, inner in re.findall(r"([A-Za-z`][^,()]*?)(?: \(([^()]*)\))?(?:, |$)", (named[2] or "") if named else group):
                if crate is None:
                    is_given = any(name in self.crates[one].specs.get(module, ()) for one, module in given)
                    self.must(is_given, name, " ".join(f"{one}: {module}" for one, module in given) or "a module that the text names")
                elif self.must(name in self.crates[crate].specs, f"{name}.antt", f"crates/{crate}/specs"):
                    for it in inner.replace("`", "").split(", ") if inner else ():
                        self.must(it in self.crates[crate].specs[name], it, f"crates/{crate}/specs/{name}.antt")

    def clause(self, cell, call):
        """`clause`, `clause` of the call"""
        crate, name = call
        for clause in QUOTED.findall(cell):
            self.must(clause in self.crates[crate].clauses.get(name, ()), f"`ensures {clause}`", f"{crate}::{name}")

    def calls(self, cell):
        """`crate`: `Trait` of `other`: `Type`, `call` (`clause`)"""
        crate, named = None, []
        for sign, text, colon in re.findall(r"(\(|\bas|\ban?)? ?`([^`]+)`(:?)", cell):
            if text in self.crates and (colon or crate is None or sign == "("):
                crate, named = self.crate(text) and text, []
            elif text in self.crates:
                self.crate(text)
            elif sign == "(" and named and crate:
                is_file = (self.top / "crates" / crate / "src" / f"{text}.rt").is_file()
                self.must(is_file or text in self.crates[crate].clauses.get(named[-1], ()), f"`ensures {text}`", f"{crate}::{named[-1]}")
            elif sign in ("as", "a", "an"):
                self.must(any(text in self.crates[it].items for it in self.below({crate})), text, f"a crate that {crate} uses")
            elif crate and self.must(all(it in self.crates[crate].items for it in text.split("::")), text, f"crates/{crate}/src"):
                named.append(text.split("::")[-1])
            elif not crate:
                self.must(False, text, "a crate: none is named before it")

    def law(self, cell, crates):
        """`name` in a module of a crate's specs/ or proofs/"""
        known = [it for crate in crates for it in (*self.crates[crate].specs.values(), *self.crates[crate].proofs.values())]
        for name in set(QUOTED.findall(cell)) - set(self.crates):
            self.must(any(name in it for it in known), name, f"specs/ and proofs/ of {' '.join(sorted(crates))}")

    def rows(self, cell):
        """`file` of rows_units; `file`: firmware, firmware of sim_rows"""
        for group in (it.strip() for it in cell.split(";")):
            for file, names in re.findall(r"`([\w.-]+\.rows)`(?:: (.*))?", group):
                path = self.top / "crates" / ("sim_rows" if names else "rows_units") / "data" / file
                if self.must(path.is_file(), file, path.parent.relative_to(self.top)):
                    for name in names.split(", ") if names else ():
                        self.must(re.search(rf"\b{re.escape(name)}\.hex\b", path.read_text()), f"{name}.hex", path.relative_to(self.top))

    def registers(self, addresses, names):
        """0x44 to 0x46, 0x50 and the names of the registers there"""
        found = []
        for part in addresses.split(", "):
            first, _, last = part.partition(" to ")
            found += range(int(first, 0), int(last or first, 0) + 1)
        named = QUOTED.findall(names.partition(":")[0])
        self.must(len(found) == len(named), f"address for each of {names}", addresses)
        for address, name in zip(found, named):
            known = set().union(*(crate.constants.get(name, ()) for it, crate in self.crates.items() if it.startswith("avr_")))
            self.must(known == {address}, f"{name} at 0x{address:02X}", "the crates of the microcontroller")

    def text(self, text, places, where):
        """What a sentence names: `a::b`, `folder/file`, `crate`, or something of one of these places; (Law, OtherLaw)"""
        for name in [*QUOTED.findall(text), *(it for names in GROUPED.findall(text) for it in names.split(", "))]:
            if name in WORDS or self.name == "UNO.md" and REGISTER.fullmatch(name):
                continue
            crate, _, rest = name.partition("::")
            if rest and crate in self.crates:
                self.must(self.crates[crate].has(rest), rest, f"crates/{crate}")
            elif "/" in name:
                self.must(any(self.top.glob(name)), name, "this repository")
            else:
                self.must(name in self.crates or any(it.has(name) for it in places), name, where)

    def below(self, crates):
        """These crates, and all that they use."""
        found, todo = set(), list(crates)
        while todo:
            crate = todo.pop()
            if crate in self.crates and crate not in found:
                found.add(crate)
                todo += self.uses.get(crate, ())
        return found

    # ---- the page

    def crates_in(self, text):
        return {it.split("::")[0] for it in QUOTED.findall(text)} & set(self.crates)

    def read(self):
        given, call, head, section = [], None, None, set()
        for self.line, line in enumerate((self.top / "docs" / self.name).read_text().splitlines(), 1):
            if line.startswith("## "):
                given, call, section = [], None, set()
            if not line.startswith("|"):
                head = None
                section |= self.crates_in(line)
                self.text(line, [self.anywhere], "any crate, and no file")
                call = call or self.call_in(line)
                given += self.modules_in(line)
            elif head is None:
                head = self.cells(line)
            elif set(line) - set("|-"):
                self.row(dict(zip(head, self.cells(line))), given, call, section)
        return self.bad

    @staticmethod
    def cells(line):
        return [it.strip() for it in re.split(r"(?<!\\)\|", line)[1:-1]]

    def call_in(self, line):
        """The first `crate::call` of a sentence whose call has clauses with names."""
        for name in QUOTED.findall(line):
            crate, _, call = name.partition("::")
            if crate in self.crates and call in self.crates[crate].clauses:
                return crate, call
        return None

    def modules_in(self, line):
        """Each module that a sentence names as `crate`: Name and Other."""
        named = re.findall(r"`(\w+)`: ([A-Z]\w*(?:(?:, | and )[A-Z]\w*)*)", line)
        return [(crate, it) for crate, names in named if crate in self.crates for it in re.split(", | and ", names) if it in self.crates[crate].specs]

    def row(self, cells, given, call, section):
        crates = self.crates_in(" ".join(cells.values())) or section
        for title, cell in cells.items():
            if title == "definition":
                self.definition(cell, given)
            elif title == "clause" and call:
                self.clause(cell, call)
            elif title == "clause":
                self.calls(cell)
            elif title == "law":
                self.law(cell, crates)
            elif title == "rows":
                self.rows(cell)
            elif title == "register" and "address" in cells:
                self.registers(cells["address"], cell)
            elif title == "promise":
                near = self.below(crates | ({call[0]} if call else set()))
                self.text(cell, [self.crates[it] for it in near], f"{' '.join(sorted(crates))} and what they use")


class Tour(Page):
    """A page that tells how the crates do something: what it names is of any crate, or a file."""

    def read(self):
        fields = {it for path in (self.top / "crates").glob("*/src/*.rt") for it in FIELD.findall(path.read_text())}
        for self.line, line in enumerate((self.top / "docs" / self.name).read_text().splitlines(), 1):
            for name in QUOTED.findall(line):
                bare = re.split("[<(]| = ", name.removeprefix("impl "))[0]
                is_file = "/" in bare and (any(self.top.glob(bare)) or any(self.top.glob(f"crates/*/{bare}")))
                is_known = bare in WORDS | self.crates.keys() | fields | {"Bool", "match"} or self.anywhere.has(bare)
                self.must(is_file or is_known, name, "any crate, and no file")
        return self.bad


class Guide(Page):
    """A page at the top whose lists name files: each is there from the top, or in a crate, or under its name alone somewhere. What has
    two capital letters, as `crates/NAME`, is a form of names, and what begins with `target/` is made."""

    where = ""

    def read(self):
        names = {path.name for place in ("crates", "tools", "docs", "examples", "bench") for path in (self.top / place).rglob("*")}
        for self.line, line in enumerate((self.top / self.name).read_text().splitlines(), 1):
            for name in filter(FILE.fullmatch, QUOTED.findall(line)):
                if re.search("[A-Z]{2}", name) or name.startswith("target/"):
                    continue
                is_there = name.rstrip("/") in names or any(self.top.glob(name)) or any(self.top.glob(f"crates/*/{name}"))
                self.must(is_there, name, "the repository")
        return self.bad


def main():
    bad, found = [], 0
    pages = [Page(TOP, "PROVED.md"), Page(TOP, "UNO.md"), Tour(TOP, "ARCHITECTURE.md"), Tour(TOP, "ENGINE.md"), Guide(TOP, "CONTRIBUTING.md")]
    for page in pages:
        bad += page.read()
        found += page.found
    for line in bad:
        print(line, file=sys.stderr)
    print(f"{found} names in {', '.join(page.where + page.name for page in pages)}: {len(bad)} that are not there")
    return bool(bad) or not all(page.found for page in pages)


if __name__ == "__main__":
    sys.exit(main())
