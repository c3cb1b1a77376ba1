#!/usr/bin/env python3
"""Runs the commands that the README, the pages under docs/ and those of the examples show, as they stand there: each indented
line, and each `./mudflatjar ..` within a sentence, from top to bottom in one shell for each page. It does so in a copy of the
checkout in which ./mudflatjar runs the program in PROGRAM (target/mudflatjar if it is not set). Each must end with 0.

A command with a word in capitals (FOLDER) is a form: its options must be among those that its --help shows. An indented text
that is no command must be lines that the page's commands wrote. shown.txt has what is otherwise, each with its reason.
Ends with 1 where one fails, where a text is not written, or where shown.txt names what no page shows.

  commands.py [PAGE..]     these pages alone
"""
import os
import pathlib
import re
import shlex
import shutil
import subprocess
import sys
import tempfile

TOP = pathlib.Path(__file__).resolve().parents[2]
TOOLS = "cd clang cp gtkwave mv node pulseview pytest-3 rustc sigrok-cli wat2wasm".split()
# a command within a sentence; `./mudflatjar look` alone is only a name
INLINE = re.compile(r"`((?:\./mudflatjar|(?:tools|examples|sdk|bench)/[\w./-]+) [^`]+)`")
GLOBAL = ("--try", "--built", "--released")
KINDS = ("not run", "text", "into", "before", "if")


class Rule:
    """A line of shown.txt: the page, how what it shows begins, and what is to be done with that."""

    def __init__(self, line):
        self.page, self.begins, rest = (it.strip() for it in line.split(" | ", 2))
        self.kind, _, self.what = rest.partition(": ")
        self.is_used = False
        if self.kind not in KINDS or not self.what:
            raise ValueError(f"not understood: {line}")


def rules_of(text):
    return [Rule(line) for line in text.splitlines() if line and not line.startswith("#")]


def pieces(text):
    """What a page shows, in its order: (line, "block", its lines) and (line, "inline", a command)."""
    found, block, begun, is_blank, fenced = [], [], 0, True, False
    for number, line in enumerate([*text.splitlines(), ""], 1):
        fenced ^= line.startswith("```")
        if line.startswith("    ") and (block or is_blank) and not fenced:
            begun = begun if block else number
            block.append(line[4:])
        elif block and line:
            found.append((begun, "block", block))
            block = []
        elif block:
            block.append("")
        if not line.startswith("    "):
            found += [(number, "inline", it) for it in INLINE.findall(line) if len(it.split()) > 2 or "--" in it or not it.startswith("./")]
        is_blank = not line
    if any(block):
        found.append((begun, "block", block))
    return [(at, kind, [it for it in what if it] if kind == "block" else what) for at, kind, what in found]


def first_word(command):
    return next((it for it in command.split() if not re.match(r"\w+=", it)), "")


def is_form(command):
    """Whether a word of it stands for another: FOLDER, NAME.ino, OUT/x, [--open], `..`."""
    words = [it for it in command.split() if not re.match(r"[A-Z_]+=", it) and "README" not in it]
    return any(re.fullmatch(r"(.*/)?[A-Z]+(\.[a-z.]+)?(/.*)?|\[.*|.*\]|\.\.", it) for it in words[1:])


def options(command):
    return re.findall(r"(?<![\w-])--?[a-z][a-z-]*(?![\w:])", " ".join(command.split()[1:]))


class Page:
    def __init__(self, name, text, folder, rules):
        self.name, self.folder = name, folder
        self.rules = [rule for rule in rules if rule.page == name]
        self.steps, self.texts, self.bad = [], [], []
        for at, kind, what in pieces(text):
            if kind == "inline":
                self.command(at, what)
            elif self.is_command(what[0]):
                for line in what:
                    self.command(at, line)
            else:
                self.block(at, what)

    def rule(self, kinds, text):
        for rule in self.rules:
            if rule.kind in kinds and (rule.begins == "*" or text.startswith(rule.begins)):
                rule.is_used = True
                return rule
        return None

    def home(self, command):
        """The folder that the command is run in: the top, or the page's own where its file is only there."""
        word, own = first_word(command), (self.folder / self.name).parent
        return own if "/" in word and not (self.folder / word).exists() and (own / word).exists() else self.folder

    def is_command(self, line):
        word = first_word(line)
        return word in TOOLS or "/" in word and ((self.folder / word).is_file() or (self.home(line) / word).is_file()) or word.startswith("../")

    def block(self, at, lines):
        into = self.rule(["into"], lines[0])
        if into:
            self.steps.append((at, lines[0], f"cat >{into.what} <<'END_OF_BLOCK'\n" + "\n".join(lines) + "\nEND_OF_BLOCK", None))
        elif not self.rule(["text", "not run"], lines[0]):
            self.texts.append((at, lines))

    def command(self, at, command):
        if self.rule(["not run"], command):
            return
        if is_form(command):
            self.form(at, command)
            return
        wants, before = self.rule(["if"], command), self.rule(["before"], command)
        self.steps.append((at, command, f"{before.what} && {command}" if before else command, wants and wants.what))

    def form(self, at, command):
        """Its --help must have each option of the form."""
        words = [it for it in command.split() if it not in GLOBAL]
        asks = " ".join(words[:2] if words[0] == "./mudflatjar" and re.fullmatch("[a-z-]+", words[1]) else words[:1])
        names = [it for it in options(command) if it not in GLOBAL]
        script = f"shown=$(timeout 60 {asks} --help) || {{ echo '{asks} --help fails' >&2; return 1; }}\n"
        for name in names:
            script += f"printf '%s\\n' \"$shown\" | grep -qE -e '(^|[^a-z-]){name}([^a-z-]|$)' || {{ echo '{asks} --help does not have {name}' >&2; return 1; }}\n"
        self.steps.append((at, command, script, None))

    def run(self, work, environment):
        """Runs all, and keeps what is wrong in `bad`; returns how many commands ran."""
        session, names = [], []
        for number, (_, command, script, wants) in enumerate(self.steps):
            name = work / f"{number:03}"
            name.with_suffix(".sh").write_text(script + "\n")
            home = self.home(command)
            goes = f"cd {shlex.quote(str(home))} && " if home != self.folder else ""
            does = f"{goes}. {name}.sh >{name}.out 2>{name}.err </dev/null; echo $? >{name}.status"
            moves = (re.findall(r"^cd \S+", command) or [":"])[0]
            session.append(f"if {{ {wants}; }} >/dev/null 2>&1; then {does}; else {moves}; echo {shlex.quote(wants)} >{name}.lacks; fi" if wants else does)
            names.append(name)
        whole = work / "session.sh"
        whole.write_text("\n".join(session) + "\n")
        written = subprocess.run(["sh", whole], cwd=self.folder, env=environment, capture_output=True, text=True, timeout=1800)
        ran = 0
        for (at, command, _, _), name in zip(self.steps, names):
            lacks, status = name.with_suffix(".lacks"), name.with_suffix(".status")
            if lacks.exists():
                print(f"{self.name}:{at}: skipped, since this fails: {lacks.read_text().strip()}", file=sys.stderr)
            elif not status.exists() or status.read_text().strip() != "0":
                ended = status.read_text().strip() if status.exists() else "none"
                errors = name.with_suffix(".err")
                said = (errors.read_text(errors="replace") if errors.exists() else written.stderr).splitlines()[-6:]
                self.bad.append("\n    ".join([f"{self.name}:{at}: status {ended}: {command}", *said]))
            else:
                ran += 1
        if not any(name.with_suffix(".lacks").exists() for name in names):
            self.compare(names)
        return ran

    def compare(self, names):
        """Each text that is no command must be lines of what the commands wrote: to an output, or to a file beside them."""
        files = [name.with_suffix(end) for name in names for end in (".out", ".err")]
        files += [self.folder / it for _, command, _, _ in self.steps for it in re.findall(r"[\w./-]+\.(?:vcd|txt)", command)]
        lines = {line for file in files if file.is_file() for line in file.read_text(errors="replace").splitlines()}
        for at, text in self.texts:
            for line in text:
                if line != ".." and line not in lines:
                    self.bad.append(f"{self.name}:{at}: no command of the page writes this line: {line}")
                    break


def copy_of(top, work, program):
    """A copy as a release has it: without sources of the program, so that ./mudflatjar runs the one in dist/."""
    copy, without = work / "checkout", {".git", "target", "dist", "crates", "crates.txt"}
    shutil.copytree(top, copy, symlinks=True, ignore=lambda folder, names: without & set(names) if pathlib.Path(folder) == top else ())
    (copy / "dist").mkdir()
    shutil.copy(program, copy / "dist/mudflatjar")
    for page in ("mudflatjar.html", "mudflatjar.mjs"):
        if (top / "dist" / page).exists():
            shutil.copy(top / "dist" / page, copy / "dist")
    return copy


def main(words):
    program = pathlib.Path(os.environ.get("PROGRAM") or TOP / "target/mudflatjar").resolve()
    if not os.access(program, os.X_OK):
        sys.exit(f"commands: there is no program {program}")
    rules = rules_of((TOP / "tools/pages/shown.txt").read_text())
    names = words or ["README.md", *sorted(str(it.relative_to(TOP)) for it in (*TOP.glob("docs/*.md"), *TOP.glob("examples/*/README.md")))]
    bad, ran = [], 0
    with tempfile.TemporaryDirectory() as room:
        copy = copy_of(TOP, pathlib.Path(room), program)
        environment = {name: value for name, value in os.environ.items() if name not in ("PROGRAM", "MUDFLATJAR", "KIND", "CDPATH")}
        environment |= {"BROWSER": "true", "XDG_CACHE_HOME": f"{room}/cache"}
        for name in names:
            page = Page(name, (TOP / name).read_text(), copy, rules)
            work = pathlib.Path(room) / name.replace("/", "-")
            work.mkdir()
            ran += page.run(work, environment)
            bad += page.bad
    if not words:
        bad += [f"tools/pages/shown.txt: {rule.page} does not show {rule.begins}" for rule in rules if not rule.is_used]
    for line in bad:
        print(line, file=sys.stderr)
    print(f"{len(names)} pages, {ran} commands did what they say, {len(bad)} faults")
    return bool(bad) or not ran


if __name__ == "__main__":
    sys.exit(main(sys.argv[1:]))
