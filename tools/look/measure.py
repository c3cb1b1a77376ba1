#!/usr/bin/env python3
"""Measures look on a wave of random changes of 20 pins, the worst case of the packing: writes a wave, reads and packs it, makes the
page and opens it in Chromium; one line with sizes and times (docs/PERFORMANCE.md)."""
import argparse
import io
import os
import random
import tempfile
import time

from browser import Browser
from look import Seen
from packing import packed
from page import page_of
from wave import Waves, read_wave

PINS = [f"uno.{pin}" for pin in [*range(14), *(f"A{k}" for k in range(6))]]
# a script in the page that calls something N times and answers the time in the middle, in ms
MEDIAN = """(() => { const times = []; for (let k = 0; k < %d; k++) { const begun = performance.now(); %s;
  times.push(performance.now() - begun); } return times.sort((a, b) => a - b)[times.length >> 1]; })()"""


def random_wave(changes: int) -> tuple[bytes, int]:
    """A dump of so many changes, each of one pin, some 30 cycles apart, and the cycle of its end."""
    draw = random.Random(1)
    codes = [chr(33 + k) for k in range(len(PINS))]
    out = ["$timescale 100 ps $end\n$scope module board $end\n"]
    out += [f"$var wire 1 {code} {pin} $end\n" for code, pin in zip(codes, PINS)]
    out.append("$upscope $end\n$enddefinitions $end\n#0\n$dumpvars\n")
    out.append("".join(f"0{code}\n" for code in codes) + "$end\n")
    levels, cycle = [0] * len(PINS), 0
    for _ in range(changes):
        cycle += draw.randrange(1, 60)
        pin = draw.randrange(len(PINS))
        levels[pin] ^= 1
        out.append(f"#{cycle * 625}\n{levels[pin]}{codes[pin]}\n")
    end = (cycle // 16 + 1) * 16
    out.append(f"#{end * 625}\n")
    return "".join(out).encode(), end


def run_of(waves: Waves, end: int) -> Seen:
    """A run of an Uno alone with these waves, as a page shows it."""
    uno = {"type": "wokwi-arduino-uno", "id": "uno", "left": 0, "top": 0}
    return Seen(
        title="measure",
        cycles=end,
        start=0,
        end=end,
        diagram={"parts": [uno], "connections": []},
        chips={},
        modules={},
        script="",
        waves=waves,
        sent=b"",
        times=[],
        formats=[],
        others=[],
        report="",
        firsts={},
        left="",
        made=[],
    )


def opened(path: str) -> tuple[float, float, float, float]:
    """How long a page takes to open, in s, also of the processor, to draw its waves, and to show another moment, in ms."""
    page = Browser()
    try:
        page.call("Performance.enable", timeDomain="threadTicks")
        seconds = page.open(path)
        metrics = {metric["name"]: metric["value"] for metric in page.call("Performance.getMetrics")["metrics"]}
        drawn = page.js(MEDIAN % (9, "it.pane.draw()"))
        return seconds, metrics["TaskDuration"], drawn, page.js(MEDIAN % (21, "it.go(it.run.to * k / 21)"))
    finally:
        page.close()


def measured(changes: int) -> str:
    """The line of a wave of so many changes."""
    vcd, end = random_wave(changes)
    begun = time.process_time()
    waves, _ = read_wave(io.BytesIO(vcd), changes + 1000)
    read = time.process_time()
    text = packed(waves.waves)
    pack = time.process_time()
    with tempfile.TemporaryDirectory() as box:
        path = os.path.join(box, "page.html")
        with open(path, "w", encoding="utf-8") as file:
            file.write(page_of(run_of(waves, end)))
        size = os.path.getsize(path)
        seconds, work, drawn, frame = opened(path)
    return (
        f"a wave of {len(vcd):,} bytes, {sum(map(len, waves.waves)):,} changes; read in {read - begun:.1f} s and packed in "
        f"{pack - read:.1f} s of processor time into {len(text):,} bytes; page {size:,} bytes, opens in {seconds:.2f} s, "
        f"{work:.2f} s of processor time, all is drawn in {drawn:.0f} ms, a frame in {frame:.1f} ms"
    )


if __name__ == "__main__":
    parser = argparse.ArgumentParser(description=__doc__)
    parser.add_argument(
        "changes", nargs="?", type=int, default=5_000_000, help="of the wave, 5,000,000 if it is not said"
    )
    print(measured(parser.parse_args().changes))
