#!/usr/bin/env python3
"""Runs a project and writes one HTML file in which the run can be seen: the board, its waves, what was sent, how it ended.
FOLDER may also be one of Wokwi's editor, or its ZIP archive: it is built, and made a project, as `play` does.

    look.py FOLDER --us N [--script FILE] [-o PAGE] [--open] [--from US] [--to US]
            [--svg PINS | --svg-board US] [--edges N] [--samples N] [--title TEXT] [--note TEXT]..
            [--budget N] [--sketch FOLDER] [--quiet]

docs/LOOK.md describes the page. PROGRAM names the simulator, else it is the one that ./mudflatjar builds.
"""
import argparse
import functools
import os
import pathlib
import re
import sys
import tempfile
import time
import webbrowser
from array import array
from typing import NamedTuple

from engine import EngineMissing, board_svg
from page import page_of
from picture import waves_svg
from prepared import NoProject, moves, project_of, script_of
from program import Refused, ShorterRuns, run
from project import chips_of, diagram_of, displays_of, modules_of, played_in, uno_of
from serial_times import decided, readings
from shorter import first_times
from wave import Waves, moved_names, read_wave

TOOLS = os.path.join(os.path.dirname(os.path.abspath(__file__)), "..")
sys.path += [TOOLS, os.path.join(TOOLS, "script")]
import option
import tell

CYCLES_A_MICROSECOND = 16
EDGES = 6_000_000       # a page holds so many changes: 54 MB in the browser's memory
SAMPLES = 64            # shorter runs, for what a wave does not hold


class Seen(NamedTuple):
    """A run, as a page shows it. Times are cycles; the waves are held from `start` up to `end`."""

    title: str
    cycles: int
    start: int
    end: int
    diagram: dict
    chips: dict
    modules: dict
    script: str
    waves: Waves
    sent: bytes
    times: list
    formats: list
    others: list
    report: str
    firsts: dict
    left: str
    made: list
    told: list = []
    controls: dict = {}


def microseconds(text):
    """A time of the command line: microseconds, or a number with us, ms or s."""
    match = re.fullmatch(r"(\d{1,10})(us|ms|s)?|(\d{1,6}\.\d{1,6})(ms|s)", text)
    if not match:
        raise argparse.ArgumentTypeError(f"{text} is no time: microseconds, or a number with us, ms or s")
    unit = {"us": 1, "ms": 1000, "s": 1_000_000}[match[2] or match[4] or "us"]
    return int(match[1]) * unit if match[1] else round(float(match[3]) * unit)


def arguments(words):
    parser = option.each_once(argparse.ArgumentParser(prog="look", description="Runs a project and writes a page in which the run can be seen."))
    parser.add_argument("folder", help="a project, a folder of Wokwi's editor, or the ZIP archive of one")
    parser.add_argument("--us", type=microseconds, required=True, metavar="N", help="how long the run is: microseconds, or a number with us, ms or s")
    parser.add_argument("--script", help="presses buttons and turns wipers (docs/SCRIPTS.md)")
    parser.add_argument("-o", metavar="FILE", help="where to write; FOLDER.html if nothing is said")
    parser.add_argument("--open", action="store_true", help="open the page in the browser")
    parser.add_argument("--from", type=microseconds, default=0, dest="start", metavar="US", help="the first microsecond that is kept")
    parser.add_argument("--to", type=microseconds, metavar="US", help="the microsecond up to which it is kept")
    parser.add_argument("--svg", metavar="PINS", help="write a picture of the waves of these pins, names between commas, in place of a page; `moved` is each that moved")
    parser.add_argument("--svg-board", type=microseconds, metavar="US", help="write a picture of the board at this time in place of a page (needs node or Chromium)")
    parser.add_argument("--edges", type=int, default=EDGES, help=f"how many changes a page may hold ({EDGES:,})")
    parser.add_argument("--samples", type=int, default=SAMPLES, help=f"how many shorter runs may be made, for what no wave tells ({SAMPLES})")
    parser.add_argument("--title", help="what stands over the page; the folder's name if nothing is said")
    parser.add_argument("--note", action="append", default=[], metavar="TEXT", help="says in the page how the project was made of another; may stand several times")
    parser.add_argument("--budget", type=option.budget, metavar="N", help="how many units of fuel each call of a chip may spend")
    parser.add_argument("--sketch", metavar="FOLDER", help="the folder with the sketch that the project was made of, for what is said of its wiring")
    parser.add_argument("--quiet", action="store_true", help="does not say what the run left out, which the page says too")
    given = parser.parse_args(words)
    given.name = re.sub(r"\.zip$", "", os.path.basename(os.path.abspath(given.folder)), flags=re.I)
    if given.to is None:
        given.to = given.us
    if not 0 <= given.start < given.to <= given.us:
        parser.error("--from and --to are microseconds of the run, the first below the second")
    if given.svg is not None and given.svg_board is not None:
        parser.error("one picture at a time: --svg or --svg-board")
    if given.svg_board is not None and not given.start <= given.svg_board <= given.to:
        parser.error("--svg-board is a microsecond of what is kept")
    if given.edges < 1 or given.samples < 0:
        parser.error("--edges is at least 1, --samples at least 0")
    return given


def seen_of(given):
    """Runs the project as the words say. Raises moves.Fault where the script moves what is not there."""
    with tempfile.TemporaryDirectory() as box:
        moved = []
        if given.script:
            given.script, moved = moves.put_expanded(given.script, given.folder, os.path.join(box, "script.txt"))
        return seen_with(given, moved)


def seen_with(given, moved):
    """The run by the script that the program takes; `moved` are the controls that it moves."""
    script = ""
    start, end = given.start * CYCLES_A_MICROSECOND, given.to * CYCLES_A_MICROSECOND
    kept = functools.partial(keep_whole, given.folder)
    sent, report, (waves, cut) = run(given.folder, given.us, given.script,
                                     lambda stream: read_wave(stream, given.edges, start, end, kept), budget=given.budget)
    diagram, chips = diagram_of(given.folder), chips_of(given.folder)   # the program has accepted them
    if given.script:
        with open(given.script, encoding="utf-8", errors="replace") as file:
            script = file.read()
    left = ""
    if cut is not None:
        left = (f"The wave has more changes than a page holds: here are those up to {cut / CYCLES_A_MICROSECOND:,.4f} µs"
                f" of {given.us:,} µs. Bytes and report are those of the whole run; --from and --to keep another part.")
        end = min(end, cut)
    transmit = waves.waves[waves.of[waves.names.index(uno_of(diagram) + ".1")]]
    runs = ShorterRuns(given.folder, given.script, given.samples, given.budget)
    ways = decided(readings(transmit, sent, None if end == given.us * CYCLES_A_MICROSECOND else end), runs.sent)
    formats, times = ways[0] if ways else ([], None)
    return Seen(given.title or given.name, given.us * CYCLES_A_MICROSECOND, start, max(end, start + 1), diagram, chips,
                modules_of(given.folder, diagram), script, waves, sent, times, formats, [way.formats[0] for way in ways[1:]], report,
                first_times(report, given.us, runs), left, given.note, told_of(given, report, waves, end), moves.controls_of(diagram, moved))


def told_of(given, report, waves, end):
    """[part, sentence] of what was not as it was meant and has no line of its own in the report; with its lines it is said. The
    waves are held up to the cycle `end`."""
    import truth  # what it reads needs Python 3.11

    found = {}
    for name in truth.wiring.watched(given.folder):
        at = waves.waves[waves.of[waves.names.index(name)]] if name in waves.names else array("Q")
        if any(it & 3 == 3 for it in set(at.tobytes()[0 if sys.byteorder == "little" else at.itemsize - 1 :: at.itemsize])):
            times = [(it >> 2, after >> 2) for it, after in zip(at, [*at[1:], end << 2]) if it & 3 == 3]
            found[name] = times[0][0], sum(end - begin for begin, end in times)
    of_report = truth.of_report(report)
    others = [it for it in of_report if not it.line] + truth.of_project(given.folder) + truth.of_wiring(given.folder, found, given.sketch)
    if not given.quiet:
        for text in truth.texts([it for it in of_report if it.line] + others, truth.hex_of(given.folder)):
            print(f"look: {text}", file=sys.stderr)
    return [[it.names[-1], it.text] for it in others]


@functools.cache
def kept_parts(folder):
    diagram = diagram_of(folder)
    return displays_of(diagram) | played_in(diagram, modules_of(folder, diagram)), uno_of(diagram) + ".1"


def keep_whole(folder, name):
    """Whether a variable is kept from the start of the run on: displays, chips that are played and the bytes that are sent rest on
    their whole wave."""
    displays, transmit = kept_parts(folder)
    return name == transmit or name in displays or name.split(".")[0] in displays


def pictured(given, seen):
    """The picture that the words ask for."""
    if given.svg_board is not None:
        return board_svg(seen, given.svg_board * CYCLES_A_MICROSECOND)
    names = moved_names(seen.waves) if given.svg == "moved" else given.svg.split(",")
    unknown = [name for name in names if name not in seen.waves.names]
    if unknown:
        sys.exit(f"look: the wave has no pin {unknown[0]}")
    return waves_svg(seen.waves, names, seen.start, seen.end)


def main(words):
    given, said = arguments(words), []
    with tempfile.TemporaryDirectory() as box:
        try:
            folder = project_of(given.folder, box, said.append)
        except NoProject as why:
            said, folder = why.args, None
        for text in said:
            print(f"look: {text}", file=sys.stderr)
        if folder is None:
            return 1
        given.note, given.script = said + given.note, given.script or script_of(given.folder, box)
        return show(given, folder)


def show(given, folder):
    """Runs the project, and writes its page or picture; the status of the command."""
    begun = time.time()
    picture = given.svg is not None or given.svg_board is not None
    try:
        named, given.folder = given.folder, folder
        given.sketch = given.sketch or (named if os.path.isdir(named) else None)
        seen = seen_of(given)
        text = pictured(given, seen) if picture else page_of(seen)
    except Refused as refused:
        for said in tell.no_project("look", named):
            print(f"look: {said}", file=sys.stderr)
        return refused.status
    except moves.Fault as fault:
        print(f"look: {fault}", file=sys.stderr)
        return 1
    except EngineMissing as missing:
        print(f"look: {missing}", file=sys.stderr)
        return 1
    name = given.o or given.name + (".svg" if picture else ".html")
    try:
        with open(name, "w", encoding="utf-8", newline="\n") as file:
            file.write(text)
    except OSError as error:
        print(f"look: {name}: {error.strerror}", file=sys.stderr)
        return 1
    print(f"look: {name}, {len(text.encode()):,} bytes, {sum(map(len, seen.waves.waves)):,} changes, {time.time() - begun:.1f} s", file=sys.stderr)
    if given.open and not picture and not webbrowser.open(pathlib.Path(name).absolute().as_uri()):
        print("look: there is no browser to open it in", file=sys.stderr)
    return 0


if __name__ == "__main__":
    try:
        sys.exit(main(sys.argv[1:]))
    except KeyboardInterrupt:
        sys.exit(130)
