#!/usr/bin/env python3
"""Runs the checks of tools/checks.txt on the program in PROGRAM:  ./mudflatjar test [--list] [--installed] [CHECK..]

Without names it runs all of them, as many at once as there are processors, and first installs the packages that they need
(tools/setup.sh), but with --installed it takes what is there. --list says what each shows, and its command. What a check says comes when it has ended.
The last lines count what passed, failed and was skipped, and name what was. Ends with 1 where a check failed."""
import concurrent.futures
import os
import re
import signal
import subprocess
import sys
import time
from typing import Dict, List, NamedTuple

import made

LIST = made.ROOT / "tools/checks.txt"
LIMIT = 3600  # seconds for one check
RUNNING = {}


class Check(NamedTuple):
    """A line of the list: the words of its command, and what the lines above it say that it shows."""

    words: List[str]
    shows: str


def checks() -> Dict[str, Check]:
    """Each check by its name, in the order of the list. Ends the program where a line has no name of its own, no command, or
    no sentence above it."""
    found: Dict[str, Check] = {}
    if not LIST.is_file():
        made.stop("a release has no checks: they are in the repository", 2)
    above: List[str] = []
    for number, line in enumerate(LIST.read_text(encoding="utf-8").splitlines(), 1):
        if line.startswith("#"):
            above.append(line.lstrip("# "))
            continue
        if line.strip():
            words = line.split()
            if len(words) < 2 or words[0] in found:
                made.stop(f"tools/checks.txt, line {number}: a name of its own and a command", 2)
            if not above:
                made.stop(f"tools/checks.txt, line {number}: no line above {words[0]} says what it shows", 2)
            found[words[0]] = Check(words[1:], " ".join(above))
        above = []
    return found


def processors():
    return max(1, len(os.sched_getaffinity(0)))


def packages(is_installing):
    """The packages that are missing, after what could be installed was."""
    setup = [str(made.ROOT / "tools/setup.sh")]
    if is_installing:
        subprocess.run([*setup, "tests"], stdin=subprocess.DEVNULL)
    ran = subprocess.run([*setup, "--missing", "tests"], stdin=subprocess.DEVNULL, stdout=subprocess.PIPE)
    return ran.stdout.decode().split()


def run(name, words):
    """What the check said, its status and its seconds."""
    began = time.time()
    try:
        child = subprocess.Popen(words, cwd=made.ROOT, stdin=subprocess.DEVNULL, stdout=subprocess.PIPE, stderr=subprocess.STDOUT, start_new_session=True)
    except OSError as error:
        return f"{words[0]}: {error.strerror}\n", 127, 0
    RUNNING[name] = child
    try:
        said, status = child.communicate(timeout=LIMIT)[0], child.returncode
    except subprocess.TimeoutExpired:
        end(child)
        said, status = child.communicate()[0] + f"{name}: not at its end after {LIMIT} seconds\n".encode(), 1
    RUNNING.pop(name, None)
    return said.decode("utf-8", "replace"), status, time.time() - began


def end(child):
    try:
        os.killpg(child.pid, signal.SIGKILL)
    except ProcessLookupError:
        pass


def ended(number, _):
    for child in list(RUNNING.values()):
        end(child)
    os._exit(128 + number)


def main(names):
    known = checks()
    if names == ["--list"]:
        print("\n".join(f"{name}: {check.shows}\n    {' '.join(check.words)}" for name, check in known.items()))
        return 0
    is_installed, only_looks = "--installed" in names, "--known" in names
    names = [it for it in names if it not in ("--installed", "--known")]
    for name in names:
        if name not in known:
            made.stop(f"there is no check {name}; there are {', '.join(known)}", 2)
    if only_looks:
        return 0
    if not os.access(os.environ.get("PROGRAM", ""), os.X_OK):
        made.stop("PROGRAM names no program to test; ./mudflatjar test does", 2)
    for it in (signal.SIGINT, signal.SIGTERM, signal.SIGHUP):
        signal.signal(it, ended)
    failed, asked = [], [name for name in known if name in names or not names]
    skipped = [f"packages: {it} is not installed, skipped what needs it" for it in packages(not is_installed)] if not names else []
    kind = {"released": "the released program", "tried": "a program that is not proved", "checked": "a program that is not proved"}
    print(f"testing {kind.get(os.environ.get('KIND'), 'the built program')}, {os.environ['PROGRAM']}", flush=True)
    with concurrent.futures.ThreadPoolExecutor(processors()) as pool:
        runs = {pool.submit(run, name, known[name].words): name for name in asked}
        for it in concurrent.futures.as_completed(runs):
            said, status, seconds = it.result()
            name = runs[it]
            print(f"== {name}\n{said}{name}: {'ok' if status == 0 else f'failed ({status})'}, {seconds:.0f} s", flush=True)
            failed += [name] * (status != 0)
            skipped += [f"{name}: {line.strip()}" for line in said.splitlines() if re.search(r"\bskipped\b(?!.*: ok$)", line)]
    for line in skipped:
        print(f"skipped in {line}")
    print(f"{len(asked) - len(failed)} checks passed, {len(failed)} failed{': ' + ' '.join(failed) if failed else ''}, {len(skipped)} things were skipped")
    return 1 if failed else 0


if __name__ == "__main__":
    sys.exit(main(sys.argv[1:]))
