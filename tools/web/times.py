#!/usr/bin/env python3
"""How long runs take in the page, beside the program, as lines of docs/PERFORMANCE.md's table.

    times.py [--runs N] [--page FILE] [--only TEXT]

Of the program (PROGRAM, else ./mudflatjar) and of the page's worker the processor's time counts, so that other work on the machine
matters little; the program's has its start and the writing of its files. A browser is started for each run and each form of the
module; after the page's own warming up it makes the run once, and then N times more (4 if it is not said), of which the least counts.
What the browser's other threads compile beside is not counted. Needs Linux.
"""
import argparse
import base64
import glob
import os
import resource
import subprocess
import sys
import tempfile

HERE = os.path.dirname(os.path.abspath(__file__))
ROOT = os.path.realpath(os.path.join(HERE, "..", ".."))
sys.dont_write_bytecode = True
sys.path.insert(0, os.path.join(ROOT, "tools", "look"))
sys.path.insert(0, os.path.join(HERE, "test"))
from browser import Browser
from in_page import ended

PROGRAM = os.environ.get("PROGRAM", os.path.join(ROOT, "mudflatjar"))
RUNS = [("`arduino-blink`, 1 s", ["run", "arduino-blink", "--us", "1000000", "--vcd", "w", "--report", "r"]),
        ("`arduino-blink`, 10 s", ["run", "arduino-blink", "--us", "10000000", "--vcd", "w", "--report", "r"]),
        ("`bare crc.hex`, 1 s", ["bare", "crc/crc.hex", "--us", "1000000"]),
        ("`counter`, 1 ms", ["run", "counter", "--us", "1000", "--vcd", "w", "--report", "r"]),
        ("`counter`, 100 ms, a wave of 2.4 MB", ["run", "counter", "--us", "100000", "--vcd", "w", "--report", "r"]),
        ("`lcd-hello`, 1.25 s", ["run", "lcd-hello", "--us", "1250000", "--vcd", "w", "--report", "r"]),
        ("`chip-thermometer`, 250 ms", ["run", "chip-thermometer", "--us", "250000", "--vcd", "w", "--report", "r"])]
# A worker that was given one form alone runs in it.
ONLY = """(async () => {
  const forms = await Promise.all(['wide', 'narrow'].map(async id => new Uint8Array(await new Response(new Blob([Uint8Array.from(atob(document.getElementById(id).textContent.trim()), c => c.charCodeAt(0))]).stream().pipeThrough(new DecompressionStream('deflate'))).arrayBuffer())));
  it.machine.worker.postMessage({ forms: [forms[%d]], warm: it.warm });
})()"""
WORKER = "DedicatedWorker"


def program_time(words, folder):
    """The milliseconds of the processor that the program takes."""
    before = resource.getrusage(resource.RUSAGE_CHILDREN)
    subprocess.run([PROGRAM, *words], cwd=folder, stdout=subprocess.DEVNULL, check=True)
    after = resource.getrusage(resource.RUSAGE_CHILDREN)
    return 1000 * (after.ru_utime + after.ru_stime - before.ru_utime - before.ru_stime)


def text_of(path):
    try:
        with open(path, encoding="ascii", errors="replace") as file:
            return file.read()
    except OSError:
        return ""


def worker_time(browser):
    """The milliseconds that the workers' threads of a browser had so far."""
    processes, total = [browser.process.pid], 0
    for process in processes:
        for task in glob.glob(f"/proc/{process}/task/*"):
            processes.extend(int(child) for child in text_of(f"{task}/children").split())
            if text_of(f"{task}/comm").startswith(WORKER):
                total += int((text_of(f"{task}/schedstat").split() or [0])[0])
    return total / 1e6


def page_times(page, form, call, folder, runs):
    """(the first run's, the least of those after it) in a new browser."""
    browser, times = Browser(), []
    try:
        browser.open(page)
        browser.js(ONLY % form)
        ended(browser, [], folder)              # has its turn after the warming up
        for _ in range(1 + runs):
            before = worker_time(browser)
            end = ended(browser, call, folder)
            if end["status"]:
                sys.exit(f"times: {base64.b64decode(end['complaint']).decode()}")
            times.append(worker_time(browser) - before)
    finally:
        browser.close()
    return times[0], min(times[1:])


def main():
    given = argparse.ArgumentParser(description=__doc__.split("\n", maxsplit=1)[0])
    given.add_argument("--runs", type=int, default=4)
    given.add_argument("--page", default=os.path.join(ROOT, "target", "web", "mudflatjar.html"))
    given.add_argument("--only", default="", metavar="TEXT", help="the runs alone whose title has this text")
    words = given.parse_args()
    examples = os.path.join(ROOT, "examples")
    with tempfile.TemporaryDirectory() as box:
        for name in os.listdir(examples):
            os.symlink(os.path.join(examples, name), os.path.join(box, name))
        print("| run | program | 64 bits, first | after it | 32 bits, first | after it |\n|---|---|---|---|---|---|")
        for title, call in (run for run in RUNS if words.only in run[0]):
            least = min(program_time(call, box) for _ in range(1 + words.runs))
            cells = [f"{least:,.0f} ms"]
            for form in (0, 1):
                cells += [f"{taken:,.0f} ms, {taken / least:.1f} times" for taken in page_times(words.page, form, call, box, words.runs)]
            print(f"| {title} | {' | '.join(cells)} |", flush=True)


if __name__ == "__main__":
    main()
