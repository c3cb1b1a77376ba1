#!/usr/bin/env python3
"""The wrong bodies: those of the gate (crates/CRATE/must-fail/NAME.edit), and those beside it (tools/gate/wrong/CRATE/NAME.edit).

  wrong.py                looks whether each still applies: its file is there, and each text that it replaces is in it
                          exactly once. The gate has at most 60
  wrong.py --goals        runs `rt ci`, which takes a minute or two in a clone in which it has passed, and compares the goal
                          at which each wrong body of the gate is refused with goals.txt: before a release
  wrong.py --goals FILE   the same of what `rt ci` or `rt must-fail` printed
  wrong.py --try CRATE..  has the prover try those beside the gate, in a copy of the repository in which they are must-fail
                          edits: when a contract of such a crate changes. Their goals are compared too
  wrong.py .. --keep      as its last word: writes the goals that it was told into goals.txt. Read each new one first

A goal is the function, or the file of lemmas, that is not proved, and what of it: `returns` what it ensures, `F-requires`
what a call of F needs, else the goal's name. A wrong body that is refused at another goal than before may be refused for
another reason than the promise that it breaks: a finding, as is a refusal only because a proof names what it takes away.
"""
import pathlib
import re
import shutil
import subprocess
import sys
import tempfile

TOP = pathlib.Path(__file__).resolve().parents[2]
MOST = 60


class Edit:
    def __init__(self, top, path, crate):
        self.top, self.path, self.crate, self.name = top, path, crate, f"{crate}/{path.stem}"

    def apply(self):
        """The texts that it makes of files of its crate, by their path there, or what keeps it from being applied."""
        file, texts, old, pairs = None, {}, None, 0
        for line in self.path.read_text().splitlines():
            word, _, rest = line.partition(":")
            rest = rest.removeprefix(" ")
            if word == "file":
                file = rest
                if not (self.top / "crates" / self.crate / file).is_file():
                    return {}, f"there is no crates/{self.crate}/{file}"
                texts.setdefault(file, (self.top / "crates" / self.crate / file).read_text())
            elif word == "old" and file:
                old = rest
                if texts[file].count(old) != 1:
                    return {}, f"this is there {texts[file].count(old)} times: {old.strip()}"
            elif word == "new" and old is not None:
                texts[file], old, pairs = texts[file].replace(old, rest), None, pairs + 1
        return (texts, None) if pairs else ({}, "it replaces nothing")


def edits_of(top):
    """The wrong bodies of the gate, and those beside it."""
    gate = [Edit(top, path, path.parts[-3]) for path in sorted(top.glob("crates/*/must-fail/*.edit"))]
    return gate, [Edit(top, path, path.parent.name) for path in sorted(top.glob("tools/gate/wrong/*/*.edit"))]


def function_at(text, number):
    """The name of the function that the line is of: the line may be one of its attributes or comments."""
    lines = text.splitlines()
    at = number - 1
    while at + 1 < len(lines) and re.match(r"\s*(#\[|//)", lines[at]):
        at += 1
    for line in reversed(lines[: at + 1]):
        found = re.search(r"\bfn (\w+)", line)
        if found:
            return found[1]
    return "-"


def goal_of(edit, said):
    """What a line of the toolchain says that is not proved: where, and which goal."""
    found = re.match(r"(?:note: )?(?:\./)?((?:src|proofs|specs)/\S+?):(\d+):\d+: ?(.*)", said)
    if not found:
        return said.strip() or "-"
    file, line, rest = found[1], int(found[2]), found[3]
    if file.startswith("src/"):
        path = edit.top / "crates" / edit.crate / file
        text = edit.apply()[0].get(file) or (path.read_text() if path.is_file() else "")
        where = function_at(text, line)
    else:
        parts = pathlib.PurePath(file).parts
        where = parts[-2] if parts[-1] in ("Answers.antt", "Invariants.antt", "Proof.antt") else file
    names = re.findall(r"\(`([^`]+)`\)", rest) or re.findall(r"^error: `([^`]+)`:", rest)
    return f"{where}: {names[0] if names else rest.removeprefix('error: ').strip()}"


BY_NAME = "only because a proof file names"


def told(text, edits):
    """What the toolchain printed of these wrong bodies: the goals of those that are refused, and what is wrong with others."""
    by_name, goals, bad = {edit.name: edit for edit in edits}, {}, {}
    for line in text.splitlines():
        head, _, rest = line.partition("must-fail ")
        name, _, said = rest.partition(".edit: ")
        if not said or name not in by_name or not re.fullmatch(r"(rt: )?", head):
            continue
        refused = re.fullmatch(r"refused, as it must be(?: \((.*?)\))?(?:: (.*))?", said.strip())
        if not refused:
            bad[name] = said.strip()
        elif refused[1] and refused[1].startswith(BY_NAME):
            bad[name] = f"refused {refused[1]}: {refused[2]}"
        else:
            goals[name] = ("at a limit of the prover, " if refused[1] else "") + goal_of(by_name[name], refused[2] or "")
    return goals, bad


def kept_goals(top):
    path = top / "tools/gate/goals.txt"
    lines = path.read_text().splitlines() if path.is_file() else []
    return dict(line.split(" ", 1) for line in lines if line and not line.startswith("#"))


def keep(top, goals):
    path = top / "tools/gate/goals.txt"
    gate, beside = edits_of(top)
    kept = {**kept_goals(top), **goals}
    head = [line for line in path.read_text().splitlines() if line.startswith("#")] if path.is_file() else []
    lines = [f"{edit.name} {kept[edit.name]}" for edit in (*gate, *beside) if edit.name in kept]
    path.write_text("\n".join([*head, *sorted(lines)]) + "\n")


def compare(top, edits, text, is_kept):
    """Says which wrong bodies are refused at another goal than the kept one, or not at all; returns whether there are any."""
    goals, bad = told(text, edits)
    kept, findings = kept_goals(top), []
    for edit in edits:
        if edit.name in bad:
            findings.append(f"{edit.name}: {bad[edit.name]}")
        elif edit.name not in goals:
            findings.append(f"{edit.name}: nothing was said of it")
        elif edit.name not in kept:
            findings.append(f"{edit.name}: refused at {goals[edit.name]}, and tools/gate/goals.txt has no goal of it")
        elif kept[edit.name] != goals[edit.name]:
            findings.append(f"{edit.name}: refused at {goals[edit.name]}, before at {kept[edit.name]}")
    for finding in findings:
        print(finding, file=sys.stderr)
    print(f"{len(edits)} wrong bodies, {len(goals)} refused at a goal, {len(findings)} findings")
    if is_kept:
        keep(top, goals)
    return bool(findings)


def look(top):
    gate, beside = edits_of(top)
    bad = [f"{edit.path.relative_to(top)}: {why}" for edit in (*gate, *beside) for why in [edit.apply()[1]] if why]
    names, kept = {edit.name for edit in (*gate, *beside)}, kept_goals(top)
    bad += [f"tools/gate/goals.txt: {name}: there is no such wrong body" for name in kept if name not in names]
    if len(gate) > MOST:
        bad.append(f"the gate has {len(gate)} wrong bodies, and at most {MOST} are wanted: move some to tools/gate/wrong")
    for line in bad:
        print(line, file=sys.stderr)
    without = sum(edit.name not in kept for edit in gate)
    print(f"{len(gate)} wrong bodies in the gate, {without} of them without a kept goal, {len(beside)} beside it, {len(bad)} faults")
    return bool(bad) or not gate or not beside


def run(command, folder):
    """Runs a command and shows what it prints as it comes; returns that."""
    started = subprocess.Popen(command, cwd=folder, stdout=subprocess.PIPE, stderr=subprocess.STDOUT, text=True, errors="replace")
    lines = []
    for line in started.stdout:
        lines.append(line)
        print(line, end="", flush=True)
    started.wait()
    return "".join(lines)


def tried(top, crates):
    """What the toolchain says of the wrong bodies of these crates that are beside the gate."""
    with tempfile.TemporaryDirectory() as folder:
        copy = pathlib.Path(folder) / "repository"
        shutil.copytree(top, copy, ignore=shutil.ignore_patterns(".git", "out", "must-fail"))
        for crate in crates:
            shutil.copytree(top / "tools/gate/wrong" / crate, copy / "crates" / crate / "must-fail")
        subprocess.run(["git", "init", "-q"], cwd=copy, check=True)
        return run(["rt", "ci", *crates], copy)


def main(words):
    is_kept = words[-1:] == ["--keep"]
    words = words[:-1] if is_kept else words
    gate, beside = edits_of(TOP)
    if words[:1] == ["--try"] and words[1:]:
        lacking = [crate for crate in words[1:] if crate not in {edit.crate for edit in beside}]
        if lacking:
            sys.exit(f"no wrong bodies of {' '.join(lacking)} are beside the gate")
        return compare(TOP, [edit for edit in beside if edit.crate in words[1:]], tried(TOP, words[1:]), is_kept)
    if words[:1] == ["--goals"] and len(words) < 3:
        text = pathlib.Path(words[1]).read_text(errors="replace") if words[1:] else run(["rt", "ci"], TOP)
        return compare(TOP, gate, text, is_kept)
    if words or is_kept:
        sys.exit(__doc__)
    return look(TOP)


if __name__ == "__main__":
    try:
        sys.exit(main(sys.argv[1:]))
    except OSError as error:
        sys.exit(f"{error.filename or 'wrong.py'}: {error.strerror}")
