#!/usr/bin/env python3
"""Refused memory by the toolchain, a sample: `rt try --fail-alloc N` compiles the program without a proof, with a check of each
index, sum and access, and refuses request N of each command below. The command must then end with 7, with the line `out of
memory` and nothing on standard output; one that makes fewer requests must answer as the program in PROGRAM does
(target/mudflatjar if it is not set). The toolchain compiles anew for each number, which takes minutes of a processor;
test_memory.py tries each request, of the built program.

  kit.py [N..]     these numbers, or else 5, which each command has, and 300, which the small ones have not
Ends with 1 where a command answers otherwise.
"""
import os
import pathlib
import re
import shutil
import subprocess
import sys
import tempfile

TOP = pathlib.Path(__file__).resolve().parents[2]
NUMBERS, LIMIT = ["5", "300"], 1500
# each command's words; what they name is in examples/
CASES = {
    "bare": "bare blink/blink.hex --us 1",
    "run": "run chip-inverter --us 1 --vcd - --report -",
    "replay": "replay chip-inverter replay/recorded.vcd --us 1 --report -",
    "twin": "twin chip-inverter twin/by-table --us 1",
    "make": "make 7 --us 1",
    "check": "check chip-counter",
    "check-missing": "check none",
    "module": "module chip-typist/typist.wasm",
    "decode": "decode replay/recorded.vcd --uart uno.1 --bit 4",
}
REFUSED = (7, "", "out of memory\n")


def data():
    """The words that hand rt the files that the commands name."""
    named = [TOP / "examples" / word for words in CASES.values() for word in words.split() if (TOP / "examples" / word).exists()]
    files = {it for path in named for it in ([path] if path.is_file() else path.rglob("*")) if it.is_file()}
    return [word for it in sorted(files) for word in ("--data", f"{it.relative_to(TOP / 'examples')}={it}")]


def usual(program, words):
    ended = subprocess.run([program, *words.split()], cwd=TOP / "examples", stdin=subprocess.DEVNULL, capture_output=True, text=True)
    return ended.returncode, ended.stdout, ended.stderr


def answers(out, said):
    """Status, standard output and standard error of each case, from what rt wrote: what a case says on standard output comes after
    a line with its name, what it says on standard error, and how many requests it made, before one."""
    texts, found, lines = {}, {}, []
    for line in out.splitlines(keepends=True):
        name = line.strip().removeprefix("== ")
        if line.startswith("== ") and name in CASES:
            texts[name] = lines = []
        else:
            lines.append(line)
    lines = []
    for line in said.splitlines(keepends=True):
        ended = re.match(r"case=(\S+) run=(?:ended status=(\d+)|(\S+))", line)
        if ended:
            status = int(ended[2]) if ended[2] else ended[3]
            found[ended[1]] = status, "".join(texts.get(ended[1], [])), "".join(lines)
            lines = []
        elif not line.startswith("allocations: "):
            lines.append(line)
    return found


def tried(number):
    """What rt answers of the cases, or None where it is not at its end in time."""
    with tempfile.TemporaryDirectory() as folder:
        for name, words in CASES.items():
            (pathlib.Path(folder) / name).touch()
            (pathlib.Path(folder) / f"{name}.args").write_text("\n".join(words.split()) + "\n")
        command = ["rt", "try", "--fail-alloc", number, *data(), "--cases", folder]
        rt = subprocess.Popen(command, cwd=TOP / "crates/sim_main", stdin=subprocess.DEVNULL, stdout=subprocess.PIPE, stderr=subprocess.PIPE, text=True)
        try:
            return rt.communicate(timeout=LIMIT)
        except subprocess.TimeoutExpired:
            rt.terminate()
            rt.communicate()
            return None


def main(words):
    program = pathlib.Path(os.environ.get("PROGRAM") or TOP / "target/mudflatjar").resolve()
    if not all(word.isdigit() for word in words) or not os.access(program, os.X_OK):
        sys.exit(f"kit: there is no program {program}" if all(word.isdigit() for word in words) else __doc__)
    if not shutil.which("rt") or not (TOP / "crates/sim_main").is_dir():
        print("kit: skipped, there is no toolchain, or no source", file=sys.stderr)
        return 0
    is_bad, usually = False, {name: usual(program, it) for name, it in CASES.items()}
    for number in words or NUMBERS:
        ended = tried(number)
        if ended is None:
            print(f"kit: request {number} skipped, rt try is not at its end after {LIMIT} seconds", file=sys.stderr)
            continue
        found = answers(*ended)
        bad = [f"{name}: {found.get(name, 'no answer')}" for name in CASES if found.get(name) not in (REFUSED, usually[name])]
        refused = [name for name in CASES if found.get(name) == REFUSED]
        if not refused or bad:
            is_bad = True
            print(f"kit: request {number}:", *bad, *([] if found else ended[1].splitlines()[-6:]), sep="\n    ")
        print(f"kit: request {number} is refused to {len(refused)} of {len(CASES)} commands: {' '.join(refused)}", flush=True)
    return is_bad


if __name__ == "__main__":
    sys.exit(main(sys.argv[1:]))
