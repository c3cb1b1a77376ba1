#!/usr/bin/env python3
"""Runs a command, as `tools/gate/times.py rt ci`, and says at its end what the prover took in it.

  times.py [OPTION..] COMMAND..     runs the command
  times.py [OPTION..] --read FILE   reads what an earlier run printed
  --than FILE    compares with what an earlier run printed, in place of tools/gate/FIGURES.md
  --keep         puts the measured seconds into the table of tools/gate/FIGURES.md

The toolchain prints no times. Each second the processor time (user and system) of the prover's processes below the
command is read from /proc. The table, in the form of Markdown, has a row for each crate in processor seconds: its
proof, its tests, its wrong bodies, what builds its program, and the sum; and one for all. What a process takes in its
last second is not seen. Ended by SIGTERM or SIGINT, it ends the command and says what it took until then.

After the table it prints the longest chain of crates, which is the least time of a run from nothing, whatever the
number of processors, and compares with the kept figures. Machines differ, so the middle of all ratios says how fast this
one is, and a crate is named where its proof or its wrong bodies take more than a fifth more than that, and more than 10
seconds more. Wrong bodies are compared where the crate has as many as then.
"""
import collections
import os
import pathlib
import re
import signal
import statistics
import subprocess
import sys
import time

TOP = pathlib.Path(__file__).resolve().parents[2]
FIGURES = TOP / "tools/gate/FIGURES.md"
TICK = os.sysconf("SC_CLK_TCK")
KINDS = ("proof", "tests", "wrong bodies", "program")
SHARE, SECONDS = 1.2, 10


def processes():
    """Of each process its parent, its user and system time, and when it began."""
    found = {}
    for pid in filter(str.isdigit, os.listdir("/proc")):
        try:
            with open(f"/proc/{pid}/stat") as file:
                fields = file.read().rsplit(")", 1)[1].split()
            found[pid] = fields[1], (int(fields[11]) + int(fields[12])) / TICK, fields[19]
        except (OSError, IndexError):
            continue
    return found


def is_below(pid, root, found):
    while pid in found and pid != root:
        pid = found[pid][0]
    return pid == root


def kind_of(words, folder):
    if "rt-edit" in folder:
        return "wrong bodies"
    if "--test" in words:
        return "tests"
    if "-o" in words and words[words.index("-o") + 1].endswith(".o"):
        return "program"
    return "proof"


def look(root, seen):
    found = processes()
    for pid, (_, used, start) in found.items():
        if (pid, start) in seen:
            seen[pid, start][1] = used
        elif is_below(pid, root, found):
            try:
                with open(f"/proc/{pid}/cmdline") as file:
                    words = file.read().split("\0")
                folder = os.readlink(f"/proc/{pid}/cwd")
            except OSError:
                continue
            if "--crate-name" in words and "rattle" in words[0]:
                crate = words[words.index("--crate-name") + 1]
                seen[pid, start] = [(crate, kind_of(words, folder)), used]


def run(command):
    """Runs the command; its status, and what it took of each kind in each crate, in processor seconds."""
    began, seen = time.time(), {}
    started = subprocess.Popen(command)
    for number in (signal.SIGTERM, signal.SIGINT):
        signal.signal(number, lambda *_: started.terminate())
    while started.poll() is None:
        look(str(started.pid), seen)
        time.sleep(1)
    taken = collections.defaultdict(lambda: dict.fromkeys(KINDS, 0))
    for (crate, kind), used in seen.values():
        taken[crate][kind] += used
    return started.returncode, dict(taken), (time.time() - began) / 60


def cells(line):
    return [cell.strip().strip("`") for cell in line.strip().strip("|").split("|")]


def read(text):
    """What a table says that this program printed, or that of FIGURES.md: the seconds of each kind in each crate."""
    taken, heads = {}, []
    for line in text.splitlines():
        if line.startswith("| crate |"):
            heads = cells(line)
        elif line.startswith("| `") and heads:
            row = dict(zip(heads, cells(line)))
            taken[row["crate"]] = {kind: int(row[kind]) if row.get(kind, "").isdigit() else 0 for kind in KINDS}
    return taken


def print_table(taken):
    """A row for each crate, in processor seconds, and one for all."""
    def row(name, seconds):
        print("| " + " | ".join([name, *[f"{x:.0f}" if x else "-" for x in (*seconds, sum(seconds))]]) + " |")

    print("| crate | " + " | ".join(KINDS) + " | sum |\n|---" + "|---" * (len(KINDS) + 1) + "|")
    for crate in sorted(taken):
        row(f"`{crate}`", taken[crate].values())
    row("all", [sum(of[kind] for of in taken.values()) for kind in KINDS])


def listed(top):
    """The crates below each crate, as crates.txt lists them."""
    lines = [line.split("#")[0] for line in (top / "crates.txt").read_text().splitlines()]
    lines = [line.split(":", 1) for line in lines if ":" in line]
    below = {name.split()[0]: names.split() for name, names in lines}
    return {name: [it for it in names if it in below] for name, names in below.items()}


def longest_chain(below, seconds):
    """Of the chains of crates of which each is below the next, the one that takes longest: its seconds and its crates."""
    found = {}

    def to(crate):
        if crate not in found:
            least, chain = max(map(to, below[crate]), default=(0, ()))
            found[crate] = least + seconds.get(crate, 0), (*chain, crate)
        return found[crate]

    return max(map(to, below), default=(0, ()))


def edits_in(top, crate):
    return len(list((top / "crates" / crate / "must-fail").glob("*.edit")))


def compare(taken, kept, same):
    """How many times as long as kept the proofs take, in the middle, and what takes a fifth more than that many times: kind,
    crate, kept, now. The wrong bodies of a crate are compared where it has the same number of them as then."""
    both = [
        (kind, crate, kept[crate][kind], taken[crate][kind])
        for crate in sorted(taken.keys() & kept.keys())
        for kind in ("proof", "wrong bodies")
        if kept[crate][kind] and taken[crate][kind] and (kind == "proof" or same(crate))
    ]
    middle = statistics.median([now / before for kind, _, before, now in both if kind == "proof"] or [1])
    dearer = [it for it in both if it[3] > SHARE * middle * it[2] and it[3] > middle * it[2] + SECONDS]
    return middle, sorted(dearer, key=lambda it: it[2] / it[3])


def counts_of(text):
    """How many wrong bodies the table of FIGURES.md says that each crate has."""
    found = {}
    for line in text.splitlines():
        number = re.search(r"\| of (\d+) \|", line)
        if line.startswith("| `") and number:
            found[cells(line)[0]] = int(number[1])
    return found


def tell(taken, kept, top, counts):
    """The longest chain, and what is dearer than kept; `counts` has how many wrong bodies a crate had then."""
    below = listed(top)

    def seconds(crate):
        now, before = taken.get(crate) or {}, kept.get(crate) or {}
        of = now if now.get("proof") else before
        return of.get("proof", 0) + of.get("program", 0)

    least, chain = longest_chain(below, {crate: seconds(crate) for crate in below})
    print(f"\nthe longest chain takes {least / 60:.0f} minutes: {', '.join(f'{it} {seconds(it):.0f}' for it in chain)}")
    told = [it for it in below if not (taken.get(it) or {}).get("proof")]
    if told:
        print(f"not proved in this run, so with the kept seconds: {', '.join(told) if len(told) < 20 else f'{len(told)} crates'}")
    middle, dearer = compare(taken, kept, lambda crate: counts.get(crate) == edits_in(top, crate))
    for kind in ("proof", "wrong bodies"):
        now, before = (sum(of[crate][kind] for crate in taken.keys() & kept.keys() if taken[crate][kind]) / 60 for of in (taken, kept))
        print(f"{kind}: {now:.0f} minutes, kept {before:.0f}")
    print(f"the middle of the ratios of the crates' proofs to the kept ones is {middle:.2f}")
    for kind, crate, before, now in dearer:
        print(f"dearer: {crate}, {kind}: {now:.0f} s, kept {before:.0f} s, {now / before / middle:.2f} times beside the middle")
    if not dearer:
        print("no crate is dearer by more than a fifth")
    new = [it for it in below if it not in kept and it in taken]
    if new:
        print(f"new: {', '.join(f'{it} {seconds(it):.0f} s' for it in new)}")
    gone = [it for it in kept if it not in below]
    if gone:
        print(f"no longer there: {', '.join(f'{it} {sum(kept[it].values()):.0f} s' for it in gone)}")


def figures(text, taken, top):
    """The text of FIGURES.md with these seconds in its table. What was not measured stays as it was kept, but for wrong bodies
    where a crate has another number of them than then."""
    kept, counts, rows = read(text), counts_of(text), []
    for crate in listed(top):
        now, before, count = taken.get(crate) or {}, dict(kept.get(crate) or {}), edits_in(top, crate)
        if count != counts.get(crate, 0):
            before["wrong bodies"] = 0
        of = {kind: now.get(kind) or before.get(kind, 0) for kind in KINDS}
        rows.append((crate, of["proof"], of["wrong bodies"], count, of["program"], of["proof"] + of["wrong bodies"] + of["program"]))
    rows.sort(key=lambda row: -row[5])
    shown = lambda seconds: f"{seconds:.0f}" if seconds else ""
    lines = ["| crate | proof | wrong bodies | | program | sum |", "|---|---|---|---|---|---|"]
    lines += [f"| `{crate}` | {proof:.0f} | {shown(wrong)} | {f'of {count}' if count else ''} | {shown(program)} | {whole:.0f} |" for crate, proof, wrong, count, program, whole in rows]
    sums = [sum(row[i] for row in rows) for i in range(1, 6)]
    lines.append("| all | {:.0f} | {:.0f} | of {} | {:.0f} | {:.0f} |".format(*sums))
    head, _, rest = text.partition("| crate |")
    after = [line for line in rest.splitlines() if not line.startswith("|")][1:]
    return head + "\n".join(lines) + "\n" + "".join(f"{line}\n" for line in after)


def words_of(words):
    """The options, and what is left: a command."""
    options = {"--than": None, "--read": None, "--keep": False}
    while words and words[0] in options:
        word, *words = words
        if word == "--keep":
            options[word] = True
        elif words:
            options[word], *words = words
        else:
            sys.exit(f"{word} wants a file\n\n{__doc__}")
    if bool(options["--read"]) == bool(words):
        sys.exit(__doc__)
    return options, words


def main():
    options, command = words_of(sys.argv[1:])
    text = FIGURES.read_text()
    kept = read(pathlib.Path(options["--than"]).read_text() if options["--than"] else text)
    status = 0
    if options["--read"]:
        taken = read(pathlib.Path(options["--read"]).read_text())
    else:
        status, taken, minutes = run(command)
        print_table(taken)
        whole = sum(sum(of.values()) for of in taken.values()) / 60
        print(f"\n{whole:.0f} processor minutes of the prover, in {minutes:.0f} minutes")
    tell(taken, kept, TOP, {} if options["--than"] else counts_of(text))
    if options["--keep"]:
        FIGURES.write_text(figures(text, taken, TOP))
    sys.exit(status)


if __name__ == "__main__":
    try:
        main()
    except OSError as error:
        sys.exit(f"{error.filename or 'times.py'}: {error.strerror}")
