#!/usr/bin/env python3
"""What a page plays of chips is what the program reports of them, at thirteen times of each run; and no module keeps a page.

With folders it compares these alone: test_played.py FOLDER US ... . Ends with 1 where something differs. What needs a compiler that is
not there is skipped, with a message.
"""
import json
import os
import random
import shutil
import subprocess
import sys
import tempfile

import examples
import page
from engine import EngineMissing, evaluated
from look import arguments, microseconds, seen_of
from packing import packed
from program import program, run

HERE = os.path.dirname(os.path.abspath(__file__))
ROOT = os.path.join(HERE, "..", "..")
PROJECTS = os.path.join(ROOT, "tools", "wokwi", "projects")
# Those with parts that a chip stands for and that show something.
SEEN = (
    "servo-and-analyzer",
    "pan-tilt",
    "pixel-ring",
    "pixel-chain",
    "serpentine",
    "clock-face",
    "marquee",
    "two-matrices",
    "stepper",
    "stepper-driver",
    "lcd-2004",
    "lcd-scroll",
    "twelve-servos",
    "led-matrix",
)
TIMES = 13
# At each time what the report would have: rows of displays that are not all 0, and lines.
SHOWN = """{ const run = await runOfPage(given.data, given.packed), hex = b => b.toString(16).toUpperCase().padStart(2, '0'); await playChips(run);
  const at = t => run.parts.filter(part => shownOf(run, part) && !part.shown).flatMap(part => {
    const { display, record } = shownOf(run, part), frame = display && record ? record.pictureAt(t) : null, rows = [];
    for (let y = 0; frame && y < frame.height; y++) {
      const row = frame.pixels.subarray(4 * y * frame.width, 4 * (y + 1) * frame.width);
      if (row.some(b => b)) rows.push(`chip ${part.id} row ${y} ` + [...row].map(hex).join(''));
    }
    return [...rows, ...linesAt(run, part, t).map(text => `chip ${part.id} | ${text}`)];
  });
  return { unplayed: run.unplayed, played: run.playing.shown.size, at: given.times.map(at), backwards: given.times.slice().reverse().map(at) }; }"""


def reported(folder: str, us: int, script: str | None) -> list[str]:
    """The lines of a report, after `us` microseconds, that tell what chips showed."""
    words = [program(), "run", folder, "--us", str(us), "--report", "-", *(["--script", script] if script else [])]
    lines = subprocess.run(words, stdout=subprocess.PIPE, check=True).stdout.decode(errors="replace").split("\n")
    return sorted(line for line in lines if line.startswith("chip ") and line.split(" ")[2] in ("row", "|"))


def compared(folder: str, us: int, script: str | None = None, words: tuple[str, ...] = ()) -> int:
    """Compares page and report at some times of a run of `us` microseconds; how many chips were played. Raises AssertionError."""
    seen = seen_of(
        arguments([folder, "--us", str(us), "--samples", "0", *(["--script", script] if script else []), *words])
    )
    chance = random.Random(os.path.basename(folder))
    first = seen.start // 16
    times = sorted({chance.randrange(max(first, 1), us) for _ in range(TIMES - 1)} | {us})
    # a run of n microseconds has the cycles 0 to 16 n - 1
    given = {"data": page.data_of(seen), "packed": packed(seen.waves.waves), "times": [16 * time - 1 for time in times]}
    got = evaluated(SHOWN, given)
    assert got["unplayed"] == [], got["unplayed"]
    for time, lines, again in zip(times, got["at"], reversed(got["backwards"])):
        played = {line.split(" ")[1] for line in lines}
        of_program = reported(folder, time, script)
        assert (
            sorted(lines) == of_program and again == lines
        ), f"{folder} at {time} us: {sorted(lines)[:3]} .. and not {of_program[:3]} .."
        assert played <= {line.split(" ")[1] for line in of_program}
    return got["played"]


# ---- Chips that are hard to play

LOOPS = """#include "wokwi-api.h"
static buffer_t display;
static uint8_t count;
static void on_rise(void *user_data, pin_t pin, uint32_t value) {
    const uint8_t pixel[] = {++count, 1, 2, 3};
    buffer_write(display, 0, pixel, sizeof pixel);
    for (volatile int i = 0; count == LAST; i++) {
    }
}
void chip_init(void) {
    uint32_t width, height;
    display = framebuffer_init(&width, &height);
    const pin_watch_config_t watch = {.edge = RISING, .pin_change = on_rise};
    pin_watch(pin_init("IN", INPUT), &watch);
    for (volatile int i = 0; LAST == 0; i++) {
    }
}
"""
GROWS = """#include "wokwi-api.h"
#include <stdio.h>
static void on_rise(void *user_data, pin_t pin, uint32_t value) {
    static int taken;
    while (__builtin_wasm_memory_grow(0, 1) != (size_t)-1) {
        taken++;
    }
    printf("%d pages, line %d ", taken, __LINE__);
    puts("and its end");
    fprintf(stderr, "attribute %d %d\\n", (int)attr_read(0), (int)attr_read(1));
    static const pin_watch_config_t other = {.edge = BOTH, .pin_change = on_rise};
    pin_watch(pin, &other);
}
void chip_init(void) {
    attr_init("a", 7);
    attr_init("b", 8);
    const pin_watch_config_t watch = {.edge = RISING, .pin_change = on_rise};
    pin_watch(pin_init("IN", INPUT), &watch);
    printf("begun\\n");
}
"""
# Memory and start function of its own kinds, a table without an export: the start function asks for all and draws.
STARTS = """(module
  (import "env" "memory" (memory 1 4))
  (import "env" "framebufferInit" (func $display (param i32 i32) (result i32)))
  (import "env" "bufferWrite" (func $write (param i32 i32 i32 i32)))
  (import "env" "pinInit" (func $pin (param i32 i32) (result i32)))
  (import "env" "pinWatch" (func $watch (param i32 i32) (result i32)))
  (table 1 funcref)
  (func $edge (param i32 i32 i32) (i32.store (i32.const 64) (i32.add (i32.load (i32.const 64)) (i32.const 1))) (i32.store (i32.const 68) (memory.grow (i32.const 1)))
    (call $write (i32.const 0) (i32.const 0) (i32.const 64) (i32.const 8)))
  (elem (i32.const 0) $edge)
  (func $start (drop (call $display (i32.const 80) (i32.const 84))) (drop (call $watch (call $pin (i32.const 16) (i32.const 0)) (i32.const 32))))
  (func (export "chipInit") (call $write (i32.const 0) (i32.const 8) (i32.const 16) (i32.const 4)))
  (start $start)
  (data (i32.const 16) "IN\\00\\00")
  (data (i32.const 36) "\\03\\00\\00\\00\\01\\00\\00\\00"))
"""


def project_with(folder: str, name: str, module: str, attrs: dict, display: dict | None) -> str:
    """A project of an Uno that blinks on pin 13 fast, and a chip whose IN is on it."""
    out = os.path.join(folder, name)
    shutil.copytree(examples.folder_of("chip-inverter"), out, ignore=shutil.ignore_patterns("expected"))
    hexes = [it for it in os.listdir(out) if it.endswith(".hex")]
    shutil.copyfile(module, os.path.join(out, "c.wasm"))
    files = {
        "wokwi.toml": f"[wokwi]\nversion = 1\nfirmware = '{hexes[0]}'\n[[chip]]\nname = 'c'\nbinary = 'c.wasm'\n",
        "c.json": json.dumps({"name": "c", "pins": ["", "IN"]} | ({"display": display} if display else {})),
        "diagram.json": json.dumps(
            {
                "version": 1,
                "parts": [{"type": "wokwi-arduino-uno", "id": "uno"}, {"type": "chip-c", "id": "c1", "attrs": attrs}],
                "connections": [["uno:13", "c1:IN", "", []]],
            }
        ),
    }
    for file, text in files.items():
        with open(os.path.join(out, file), "w", encoding="utf-8") as stream:
            stream.write(text)
    return out


def compiled(box: str, name: str, source: str, *words: str) -> str:
    """The module that sdk/build.sh makes of a source in C."""
    text, module = os.path.join(box, name + ".c"), os.path.join(box, name + ".wasm")
    with open(text, "w", encoding="utf-8") as file:
        file.write(source)
    done = subprocess.run(
        [os.path.join(ROOT, "sdk", "build.sh"), *words, "-o", module, text], stderr=subprocess.PIPE, check=False
    )
    assert done.returncode == 0, done.stderr.decode()
    return module


def check_hard(box: str) -> None:
    """Chips that a trap ends, in chipInit and later, that take all memory, and whose memory is imported, are shown as the report has them."""
    two = {"width": 1, "height": 1}
    for last in (0, 6):
        module = compiled(box, f"loops-{last}", LOOPS, f"-DLAST={last}")
        assert compared(project_with(box, f"loop-{last}", module, {}, two), 200) == 1
        trapped = subprocess.run(
            [program(), "run", os.path.join(box, f"loop-{last}"), "--us", "200", "--report", "-"],
            stdout=subprocess.PIPE,
            check=True,
        )
        assert b"chip c1 trap 9" in trapped.stdout
    module = compiled(box, "grows", GROWS, "--libc")
    assert compared(project_with(box, "grow", module, {"a": "-2147483649", "b": "4294967295"}, None), 200) == 1
    lines = reported(os.path.join(box, "grow"), 200, None)
    assert "chip c1 | begun" in lines and "chip c1 | attribute 7 -1" in lines, lines
    if not shutil.which("wat2wasm"):
        print("look, a module that imports its memory: skipped, there is no wat2wasm", file=sys.stderr)
        return
    text, module = os.path.join(box, "starts.wat"), os.path.join(box, "starts.wasm")
    with open(text, "w", encoding="utf-8") as file:
        file.write(STARTS)
    subprocess.run(["wat2wasm", "--disable-multi-value", "--disable-reference-types", text, "-o", module], check=True)
    assert compared(project_with(box, "start", module, {}, {"width": 1, "height": 3}), 200) == 1


# A board that no program ran: its chips' modules never come back, ask for what is not there, have too much, or are none.
HOSTILE = """{ const base = { module: bytesOf(given.module), display: [1, 1] }, parts = ['first', 'loops', 'none', 'large', 'last'];
  const modules = { 'chip-first': base, 'chip-last': base, 'chip-loops': { ...base, module: bytesOf(given.loops) }, 'chip-none': { ...base, module: new Uint8Array([0, 97, 115, 109]) }, 'chip-large': { ...base, module: new Uint8Array(2000000) } };
  const run = makeRun({ title: 'x', cycles: 1000, diagram: { version: 1, parts: parts.map(name => ({ type: 'chip-' + name, id: name })), connections: [] }, chips: Object.fromEntries(parts.map(name => ['chip-' + name, ['', 'IN']])), modules,
    names: parts.map(name => name + '.IN'), of: parts.map(() => 0), waves: [makeWave([0, 100, 200, 300], [0, 1, 0, 1])] });
  await playChips(run);
  return { unplayed: run.unplayed.map(it => it.text), shown: parts.map(name => [...frameAt(run, run.parts.find(part => part.id === name), 999).pixels][0]), noticed: run.unplayed.map(it => it.t) }; }"""


def check_hostile(box: str) -> None:
    """A module that does not come back is ended with its worker, and the others are shown; none has more than its memory."""
    given = {
        name: examples_bytes(compiled(box, "hostile-" + name, LOOPS, f"-DLAST={last}"))
        for name, last in (("module", 99), ("loops", 1))
    }
    got = evaluated(HOSTILE, given)
    assert got["shown"] == [2, 0, 0, 0, 2], got
    assert [text.split(":")[0] for text in got["unplayed"]] == [
        "loops is not shown as it goes on from 0 µs on",
        "none is not shown as it goes on from 0 µs on",
        "large is not shown as it goes on from 0 µs on",
    ], got["unplayed"]
    assert "did not come back" in got["unplayed"][0] and "too large" in got["unplayed"][2], got["unplayed"]


def examples_bytes(path: str) -> str:
    """A file in base64."""
    import base64

    with open(path, "rb") as file:
        return base64.b64encode(file.read()).decode()


# The run of a page whose waves come in pieces.
GROWING = """{ const whole = await runOfPage(given.data, given.packed); await playChips(whole);
  const grown = await runOfPage(given.data, given.packed), waves = grown.waves.slice();
  grown.grows = true;
  for (let k = 1; k <= 40; k++) {
    grown.to = Math.floor(grown.cycles * k / 40);
    waves.forEach((wave, i) => { const count = findEdge(wave, grown.to - 1) + 1; grown.waves[i] = { t: wave.t.slice(0, count), v: wave.v.slice(0, count), high: wave.high.slice(0, count) }; });
    await playChips(grown);
  }
  const all = run => JSON.stringify([...run.playing.shown.values()].map(shown => [shown.record.t, shown.record.at, [...shown.record.data.subarray(0, shown.record.used)], shown.lines]));
  const same = all(whole) === all(grown), last = await runOfPage(given.data, given.packed), end = run => run.parts.filter(part => shownOf(run, part)).map(part => { const frame = frameAt(run, part, run.to); return frame && [...frame.pixels]; });
  last.onlyLast = last.grows = true;
  await playChips(last);
  const isLast = JSON.stringify(end(last)) === JSON.stringify(end(whole));
  stopChips(grown); stopChips(last);
  return { same, isLast, unplayed: grown.unplayed.length }; }"""


def check_growing(folder: str, us: int) -> None:
    """A run that comes in forty pieces is shown as at once; where the last picture alone is kept, it is the last."""
    seen = seen_of(arguments([folder, "--us", str(us), "--samples", "0"]))
    got = evaluated(GROWING, {"data": page.data_of(seen), "packed": packed(seen.waves.waves)})
    assert got == {"same": True, "isLast": True, "unplayed": 0}, (folder, got)


def everything() -> int:
    """Runs all; 1 where one failed."""
    bad = 0
    with tempfile.TemporaryDirectory() as box:
        engines = os.path.join(box, "engines")
        steps = [
            (name, lambda name=name: compared(examples.folder_of(name), examples.microseconds(name)))
            for name in ("chip-display", "chip-printf", "chip-typist")
        ]
        steps += [
            (
                "chip-display from a later time on",
                lambda: compared(examples.folder_of("chip-display"), 100000, words=("--from", "60000")),
            )
        ]
        if shutil.which(os.environ.get("CLANG", "clang")) and shutil.which("wasm-ld"):
            steps += [
                ("chips that are hard to play", lambda: check_hard(box)),
                ("modules that do not come back", lambda: check_hostile(box)),
            ]
            if shutil.which("avr-g++"):
                steps += [
                    ("engines", lambda: made_of(os.path.join(HERE, "engines"), engines) and compared(engines, 60000)),
                    ("engines in pieces", lambda: check_growing(engines, 30000)),
                ]
                steps += [(f"project {name}", lambda name=name: check_project(box, name)) for name in SEEN]
            else:
                print("look, chips with engines: skipped, there is no avr-g++", file=sys.stderr)
        else:
            print("look, chips in C: skipped, there is no clang or wasm-ld", file=sys.stderr)
        steps += [(f"text of {name}", lambda name=name: check_text(name)) for name in ("lcd-hello", "lcd-i2c")]
        steps += [("chip-display in pieces", lambda: check_growing(examples.folder_of("chip-display"), 100000))]
        for name, step in steps:
            try:
                step()
                print(f"look, played, {name}: ok", flush=True)
            except EngineMissing as missing:
                print(f"look, played: skipped, {missing}", file=sys.stderr)
                return bad
            except (AssertionError, RuntimeError, subprocess.CalledProcessError) as error:
                print(f"look, played, {name}: failed: {type(error).__name__} {error}", flush=True)
                bad = 1
    return bad


def made_of(folder: str, out: str) -> bool:
    """Makes a project of a folder with a sketch and chips."""
    subprocess.run([os.path.join(ROOT, "tools", "wokwi", "lower.py"), folder, out], stderr=subprocess.PIPE, check=True)
    return True


def check_project(box: str, name: str) -> None:
    """Compares a project of tools/wokwi/projects, in which a chip stands for a part that shows something."""
    folder, out = os.path.join(PROJECTS, name), os.path.join(box, name)
    with open(os.path.join(folder, "us.txt"), encoding="ascii") as file:
        us = microseconds(file.read().strip())
    script = os.path.join(folder, "script.txt")
    assert made_of(folder, out) and compared(out, us, script if os.path.exists(script) else None) > 0


# What the report has of a text display that the page draws by a chip, as long as its text is not moved.
TEXTS = """{ const run = await runOfPage(given.data, given.packed), part = run.parts.find(it => it.shown); await playChips(run);
  const letter = code => code >= 0x20 && code < 0x7F ? String.fromCharCode(code) : '?';
  return given.times.map(t => { const { pixels } = frameAt(run, part, t); return [0, 1].map(y => `lcd ${part.id} ${y + 1} |${[...pixels].filter((_, i) => i % 4 === 0).slice(16 * y, 16 * y + 16).map(letter).join('')}|`); }); }"""


def check_text(name: str) -> None:
    """The chip that draws a text display has the text of the report, at the times of a run."""
    folder, us, script = examples.folder_of(name), examples.microseconds(name), examples.script_of(name)
    seen = seen_of(arguments([folder, "--us", str(us), "--samples", "0", *(["--script", script] if script else [])]))
    times = sorted({random.Random(name).randrange(1, us) for _ in range(TIMES - 1)} | {us})
    given = {"data": page.data_of(seen), "packed": packed(seen.waves.waves), "times": [16 * time - 1 for time in times]}
    for time, lines in zip(times, evaluated(TEXTS, given)):
        report = run(folder, time, script)[1].split("\n")
        assert [line for line in report if line.startswith("lcd ")] == lines, (name, time, lines)


if __name__ == "__main__":
    if len(sys.argv) > 1:
        for folder, us in zip(sys.argv[1::2], sys.argv[2::2]):
            print(f"{folder}: {compared(folder, int(us))} played, {TIMES} times, none differs")
        sys.exit(0)
    sys.exit(everything())
