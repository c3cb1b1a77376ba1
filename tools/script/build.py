#!/usr/bin/env python3
"""Proves and builds the program:  build.py KEPT [WORDS]

KEPT/mudflatjar is the program then, KEPT/mudflatjar.made says of what it was made, and KEPT/build.log has what the
toolchain said. Then the words are run in this process. The crates are proved side by side by `rt all check` in crates/sim_main, which takes each after those below
it: `rt lib` of two crates would wait one for the other, since each holds the crates below it. `rt run` then builds the
program. What was proved before and has not changed is not proved again."""
import os
import re
import sys
import time

import made

EACH = 3_000_000_000  # bytes of memory for the proof of one crate


def number_in(file, pattern):
    try:
        with open(file, encoding="utf-8") as it:
            return int(re.search(pattern, it.read())[1])
    except (OSError, TypeError):
        return None


def processors():
    found = len(os.sched_getaffinity(0))
    for file in ("/sys/fs/cgroup/cpu.max",):
        quota, period = number_in(file, r"^(\d+)"), number_in(file, r" (\d+)")
        if quota and period:
            found = min(found, max(quota // period, 1))
    return found


def memory():
    """Bytes that are free."""
    found = [1024 * (number_in("/proc/meminfo", r"MemAvailable:\s+(\d+)") or 4_000_000)]
    limit, used = number_in("/sys/fs/cgroup/memory.max", r"^(\d+)"), number_in("/sys/fs/cgroup/memory.current", r"(\d+)")
    if limit and used is not None:
        found.append(limit - used)
    return min(found)


def at_once():
    """How many crates are proved side by side: one more than there are processors, since some wait for others."""
    return max(1, min(processors() + 1, memory() // EACH)) if processors() > 1 else 1


def seconds():
    """What each crate's proof takes, in seconds of one processor, as tools/gate/FIGURES.md measured it; 60 where it did not."""
    found = {}
    try:
        with open(made.ROOT / "tools/gate/FIGURES.md", encoding="utf-8") as it:
            for name, proof in re.findall(r"(?m)^\| `(\w+)` \| (\d+) \|", it.read()):
                found[name] = int(proof)
    except OSError:
        pass
    return {name: found.get(name, 60) for name in made.sources("names").split()}


def uses():
    """Of each crate those that it names."""
    with open(made.ROOT / "crates.txt", encoding="utf-8") as it:
        lines = [line.partition("#")[0].partition(":") for line in it if ":" in line.partition("#")[0]]
    return {name.split()[0]: rest.split() for name, _, rest in lines}


def to_prove():
    """The crates that changed since they were proved or never were, and those above one of these."""
    names, below = made.sources("names").split(), uses()
    changed = set()
    # a crate comes after those that it names
    for name in names:
        stamp = made.ROOT / f"crates/{name}/out" / ("sim_main.stamp" if name == "sim_main" else "rlib/stamp")
        try:
            proved = stamp.stat().st_mtime
            is_new = any(it.stat().st_mtime > proved for part in ("src", "specs", "proofs") for it in (made.ROOT / "crates" / name / part).rglob("*"))
        except OSError:
            is_new = True
        if is_new or changed.intersection(below.get(name, [])):
            changed.add(name)
    return changed


def guess(crates, costs, lanes, at_most):
    """The seconds that the proofs of these crates take, where each comes after those below it: each lane takes the next
    crate, and waits for those below it."""
    below, named = {}, uses()
    for name in crates:
        below[name] = set().union(*({it} | below[it] for it in named.get(name, []) if it in below))
    waiting, lanes_of, done, left, passed = sorted(crates, key=lambda it: len(below[it])), [], set(), dict(costs), 0.0
    while waiting or lanes_of:
        while waiting and len(lanes_of) < lanes:
            lanes_of.append(waiting.pop(0))
        active = [it for it in lanes_of if below[it] <= done] or lanes_of
        rate = min(1.0, at_most / len(active))
        step = max(min(left[it] for it in active), 0.001)
        passed += step / rate
        for it in active:
            left[it] -= step
            if left[it] <= 0:
                done.add(it)
                lanes_of.remove(it)
    return passed


def of_minutes(much):
    return "under a minute" if much < 60 else f"{round(much / 60)} min"


class Progress:
    """Says how far the log is, a line for each crate that is done."""

    def __init__(self, log, lanes):
        self.log, self.began, self.shown = log, time.time(), 0
        self.costs, self.lanes = seconds(), lanes
        self.todo = to_prove() or set(self.costs)

    def first(self):
        return guess([it for it in self.costs if it in self.todo], self.costs, self.lanes, processors())

    def done(self):
        with open(self.log, encoding="utf-8", errors="replace") as it:
            return [name for name in re.findall(r"(?m)^== (\w+)$", it.read()) if name in self.costs]

    def left(self, done):
        """A guess: as it was measured elsewhere, and once enough is done as fast as this machine has been."""
        rest = guess([it for it in self.costs if it in self.todo and it not in done], self.costs, self.lanes, processors())
        planned = self.first() - rest
        return rest * (time.time() - self.began) / planned if planned > 120 else rest

    def tell(self):
        done = self.done()
        if len(done) > self.shown:
            self.shown = len(done)
            go = [it for it in self.costs if it not in done]
            passed = of_minutes(time.time() - self.began)
            left = f"some {of_minutes(self.left(done))} left" if go else "the program is linked"
            made.say(f"{passed}: {done[-1]} is done, {len(go)} of {len(self.costs)} crates to go, {left}")


def why(kept, progress):
    """What is said before the work begins."""
    program = f"{kept}/mudflatjar"
    names = sorted(progress.todo)
    much = f"{len(names)} of {len(progress.costs)} crates are to be proved, {progress.lanes} at a time: some {of_minutes(progress.first())}"
    if os.path.exists(program):
        newer = made.sources("newer", f"{program}.made") if os.path.exists(f"{program}.made") else ""
        if newer:
            made.say(f"{newer} is newer than the program, so it is built again; --built runs the old one: ./mudflatjar --built ..")
        made.say(much)
    else:
        made.say(f"proving and building the program, once. {much}; --try has an unproved program in minutes: ./mudflatjar --try ..")


def run(kept):
    log, lanes = f"{kept}/build.log", at_once()
    stamp, kit = made.Stamp(), made.kit()
    open(log, "w").close()
    progress = Progress(log, lanes)
    why(kept, progress)
    status = prove(log, lanes, progress)
    with open(log, encoding="utf-8", errors="replace") as it:
        was_killed = lanes > 1 and "failed (-9)" in it.read()
    if was_killed:
        made.say("memory ran out: once more, one crate at a time")
        progress.lanes = 1
        status = prove(log, 1, progress)
    if status == 1:
        made.stop(f"the build failed: {failed(log)}. {log} says why")
    # 2: this toolchain has no such command, or stopped. What is not proved yet `rt run` proves
    program = made.CRATE / "out/sim_main"
    if program.exists():
        program.unlink()
    made.Work(["rt", "run"], log, cwd=made.CRATE).status()
    if not os.access(program, os.X_OK):
        made.stop(f"the build failed. {log} says why")
    stamp.write(f"{kept}/mudflatjar", program, kit=kit, commit=made.commit())
    made.say(f"built and proved in {of_minutes(time.time() - progress.began)}")


def prove(log, lanes, progress):
    work = made.Work(["rt", "all", "check", "--jobs", str(lanes)], log, cwd=made.CRATE)
    while work.is_running(1):
        progress.tell()
    progress.tell()
    return work.status()


def failed(log):
    """The crates that the log's summary names."""
    with open(log, encoding="utf-8", errors="replace") as it:
        names = re.findall(r"(?m)^(\w+): failed", it.read())
    return f"{', '.join(names)} is not proved" if names else "the toolchain stopped"


made.Work.left = ". What was proved until now stays proved"

if __name__ == "__main__":
    if len(sys.argv) < 2:
        sys.exit(__doc__)
    made.stop_on_mistakes(sys.argv[2:])
    if not os.access(made.CRATE, os.W_OK):
        made.stop("this checkout can only be read, and the proofs are kept in it: build in a copy that you may write")
    with made.alone(sys.argv[1], "build") as has_waited:
        if not has_waited or not made.is_fresh(f"{sys.argv[1]}/mudflatjar"):
            run(sys.argv[1])
    made.go_on(sys.argv[2:])
