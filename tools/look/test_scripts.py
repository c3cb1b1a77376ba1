#!/usr/bin/env python3
"""The scripts of page/ in node or Chromium, beside the program: waves, bytes, displays, parts, wires. Ends with 1 where something fails,
and says that it was skipped where neither is installed."""
import base64
import concurrent.futures
import itertools
import json
import os
import re
import sys
import tempfile
import xml.etree.ElementTree as ET

import examples
from engine import EngineMissing, board_svg, evaluated
from look import arguments, seen_of
from packing import packed
from page import data_of
from program import Refused, run
from serial_times import FORMATS, readings
from test_run import hex_text, make_leaving, plain_reading, sent_in

sys.path.insert(1, os.path.join(examples.HERE, "..", "peers"))
sys.path.append(os.path.join(examples.HERE, "..", "wokwi"))
import boards  # noqa: E402
import diagram as diagrams  # noqa: E402
import moves  # noqa: E402

PARTS_PAGE = os.path.join(examples.HERE, "..", "..", "docs", "PARTS.md")
SUPPLIES = {"A4.2", "A5.2", "GND.1", "GND.2", "GND.3", "5V", "3.3V", "VIN", "IOREF", "AREF", "RESET"}
TIMES = 50
BROKEN = range(1, 11)   # seeds of random boards


def given_of(name, us=None):
    """What the scripts get of an example: texts and bytes for runFrom, and what page.py would pack."""
    folder, script, us = examples.folder_of(name), examples.script_of(name), us or examples.microseconds(name)
    sent, report, vcd = run(folder, us, script, lambda stream: stream.read())
    seen = seen_of(arguments([folder, "--us", str(us), "--samples", "0"] + (["--script", script] if script else [])))
    text = lambda data: base64.b64encode(data).decode()
    return {"name": name, "us": us, "vcd": text(vcd), "serial": text(sent), "report": report, "diagram": seen.diagram, "chips": seen.chips,
            "script": seen.script, "data": data_of(seen), "packed": packed(seen.waves.waves)}, plain_reading(vcd), sent


READS = """{
  const out = [];
  for (const g of given) {
    const run = runFrom({ title: g.name, us: g.us, diagram: g.diagram, chips: g.chips, script: g.script, vcd: bytesOf(g.vcd), serial: bytesOf(g.serial), report: g.report });
    const page = await runOfPage(g.data, g.packed), rows = {};
    const edges = wave => [[...wave.t], [...wave.v].map(v => LEVELS[v]).join('')];
    for (const name of run.names) {
      rows[name] = edges(run.wave(name));
      if (JSON.stringify(edges(page.wave(name))) !== JSON.stringify(rows[name])) throw new Error(`${g.name}: ${name} is packed otherwise`);
    }
    const wave = run.wave('uno.1'), [format] = run.serial.formats, bit = format ? bitTimeOf(wave, run.serial.times, formatOf(format).length) : null;
    out.push({ rows, cycles: run.cycles, times: run.serial.times, pageTimes: page.serial.times, sent: bit ? uartFrames(wave, bit, run.to, format).map(f => f.value) : null,
      decoders: suggestedDecoders(run).map(d => ({ ...d, frames: framesOf(run, d).map(f => [f.kind, f.text]) })), high: run.names.slice(0, 20).map(n => [n, highShare(run.wave(n), 0, run.cycles)]) });
  }
  return out;
}"""


def check_reads():
    """Every edge as the scripts read and unpack it, the bytes and their times, the frames that decoders show, shares of high."""
    names = [name for name in examples.names() if name not in ("lcd-hello",)]
    with concurrent.futures.ThreadPoolExecutor(4) as pool:
        all_given = list(pool.map(given_of, names))
    found = evaluated(READS, [given for given, _, _ in all_given])
    for (given, plain, sent), seen in zip(all_given, found):
        name = given["name"]
        assert list(seen["rows"]) == list(plain), name
        for pin, row in plain.items():
            assert seen["rows"][pin] == [[t for t, _ in row], "".join(level for _, level in row)], (name, pin)
        assert seen["times"] == seen["pageTimes"], name
        if seen["sent"] is not None:
            assert bytes(seen["sent"])[:len(sent)] == sent, (name, seen["sent"])
        for pin, share in seen["high"]:
            assert abs(share - high_of(plain[pin], given["us"] * 16)) < 1e-9, (name, pin)
    return {given["name"]: seen["decoders"] for (given, _, _), seen in zip(all_given, found)}


def high_of(row, cycles):
    ends = [t for t, _ in row[1:]] + [cycles]
    return sum(end - t for (t, level), end in zip(row, ends) if level == "1") / cycles


def check_frames(decoders):
    """Frames of the examples whose bytes are known from their sketches."""
    spi = [d for d in decoders["spi-loopback"] if d["kind"] == "spi"]
    assert spi and all(text == spi[0]["frames"][i][1] for d in spi for i, (_, text) in enumerate(d["frames"])), spi
    shift = [d for d in decoders["shift-out"] if d["kind"] == "spi"]
    assert [text for _, text in shift[0]["frames"]][:4] == ["01", "02", "04", "08"], shift[0]["frames"][:4]
    scan = next(d for d in decoders["i2c-scanner"] if d["kind"] == "i2c")
    addresses = [text for kind, text in scan["frames"] if kind == "address"]
    assert addresses[:3] == ["01 W N", "02 W N", "03 W N"] and len(addresses) > 100, addresses[:3]
    room = next(d for d in decoders["chip-thermometer"] if d["kind"] == "i2c")
    assert any(kind == "address" and text.endswith(" R") for kind, text in room["frames"]), room["frames"]
    assert not decoders["blink"] and not decoders["counter"], "no decoder where nothing is sent"


# ---- The text display, beside the reports of shorter runs

LINES = """{ const run = await runOfPage(given.data, given.packed), lcd = run.parts.find(p => p.type === 'wokwi-lcd1602'), states = lcdStates(run, lcd);
  return { id: lcd.id, shown: given.us.map(us => states[Math.max(lastBefore(states, us * 16 - 1), 0)][1]), count: states.length }; }"""


def times_near(changes, us):
    """Fifty times of a run, many of them just before and after a change."""
    near = {time for t in changes[1:: max(1, len(changes) // 15)] for time in (t // 16, t // 16 + 1) if 0 < time <= us}
    return sorted(near | {us * k // (TIMES - len(near)) for k in range(1, TIMES - len(near) + 1)} if len(near) < TIMES else near)


def check_display(name):
    """What the scripts say that the display shows, and the program's report, at fifty times, most of them just after a change."""
    given, _, _ = given_of(name)
    changes = evaluated("{ const run = await runOfPage(given.data, given.packed); return lcdStates(run, run.parts.find(p => p.type === 'wokwi-lcd1602')).map(([t]) => t); }", given)
    times = times_near(changes, given["us"])
    found = evaluated(LINES, {"data": given["data"], "packed": given["packed"], "us": times})
    with concurrent.futures.ThreadPoolExecutor(4) as pool:
        reports = list(pool.map(lambda us: run(examples.folder_of(name), us)[1], times))
    shown = set()
    for us, lines, report in zip(times, found["shown"], reports):
        told = [line.split("|")[1] for line in report.split("\n") if line.startswith(f"lcd {found['id']} ")]
        assert lines == told, (name, us, lines, told)
        shown.add(tuple(told))
    assert len(times) >= TIMES - 3 and len(shown) > 3, (len(times), shown)


# ---- The OLED

OLED_BYTES = """{ const out = [], run = await runOfPage(given.data, given.packed);
  eachWritten(run, run.parts.find(p => p.type === 'board-ssd1306'), '0x3C', (t, value, isFirst) => out.push([t, value, isFirst])); return out; }"""
OLED_LINES = """given.map(({ us, vcd, diagram, times }) => {
  const run = runFrom({ title: '', us, diagram, vcd: bytesOf(vcd), report: '' }), oleds = run.parts.filter(p => p.type === 'board-ssd1306');
  return times.map(time => oleds.flatMap(part => {
    const { on, dots } = oledAt(run, part, time * 16 - 1);
    return [`oled ${part.id} ${on ? 'on' : 'off'}`, ...upTo(PAGES).map(page => `oled ${part.id} page ${page} ${[...dots.slice(page * COLUMNS, (page + 1) * COLUMNS)].map(hex).join('')}`)];
  }));
})"""


def oled_lines(report):
    return [line for line in report.split("\n") if line.startswith("oled ")]


def check_oled(name):
    """The same of an OLED, at fifty times; they are asked in a mixed order, so that the display goes back too."""
    given, _, _ = given_of(name)
    times = times_near([t for t, _, _ in evaluated(OLED_BYTES, given)], given["us"])
    times = times[::2] + times[-1::-2]
    found = evaluated(OLED_LINES, [{"us": given["us"], "vcd": given["vcd"], "diagram": given["diagram"], "times": times}])[0]
    script = examples.script_of(name)
    with concurrent.futures.ThreadPoolExecutor(4) as pool:
        reports = list(pool.map(lambda us: oled_lines(run(examples.folder_of(name), us, script)[1]), times))
    for us, lines, told in zip(times, found, reports):
        assert lines == told, (name, us)
    assert len(times) >= TIMES - 3 and len({tuple(told) for told in reports}) > 20, len(times)


# What the libraries send that most sketches use, as far as it is known (Debian has no package of them): Adafruit_SSD1306's begin() and display(), with the
# commands of one write after one control byte, and U8g2's start and one row of tiles.
ADAFRUIT = ["00 AE D5 80 A8", "00 3F", "00 D3 00 40 8D", "00 14", "00 20 00 A1 C8", "00 DA", "00 12", "00 81", "00 CF", "00 D9", "00 F1", "00 DB 40 A4 A6 2E AF"]
U8G2 = ["00 AE", "00 D5 80", "00 A8 3F", "00 D3 00", "00 40", "00 8D 14", "00 20 00", "00 A1", "00 C8", "00 DA 12", "00 81 CF", "00 D9 F1", "00 DB 40", "00 2E", "00 A4", "00 A6", "00 AF"]


def check_beginning():
    """The example's own driver sends the commands of these libraries, in Adafruit's order."""
    given, _, _ = given_of("oled-hello", 40000)
    sent, control = [], None
    for _, value, is_first in evaluated(OLED_BYTES, given):
        if is_first:
            control = value
        elif control == 0x00:
            sent.append(value)
    commands = lambda writes: [byte for write in writes for byte in bytes.fromhex(write)[1:]]
    assert sent[:len(commands(ADAFRUIT))] == commands(ADAFRUIT), bytes(sent).hex(" ")
    assert sorted(commands(ADAFRUIT)) == sorted(commands(U8G2))


def bus_wave(writes):
    """A wave of an OLED's two pins on which these writes are made, each a list of bytes after the address 0x3C, at 20 cycles a bit."""
    lines, t = [], 16

    def put(scl, sda):
        nonlocal t
        lines.append(f"#{625 * t}\n{scl}!\n{sda}\"")
        t += 5
    for write in writes:
        put(1, 1), put(1, 0), put(0, 0)
        for byte in [0x78] + write:
            for bit in [byte >> (7 - k) & 1 for k in range(8)] + [0]:
                put(0, bit), put(1, bit), put(0, bit)
        put(0, 0), put(1, 0), put(1, 1)
    head = '$timescale 100 ps $end\n$scope module board $end\n$var wire 1 ! oled.SCL $end\n$var wire 1 " oled.SDA $end\n$upscope $end\n$enddefinitions $end\n'
    return (head + "#0\n$dumpvars\n1!\n1\"\n$end\n" + "\n".join(lines) + f"\n#{625 * 16 * (t // 16 + 1)}\n").encode(), t // 16 + 1


def check_writes():
    """What the libraries send, and windows, modes and commands that wait."""
    cases = [
        ([bytes.fromhex(write) for write in ADAFRUIT + ["00 22 00 FF 21 00", "00 7F", "40 FF 01 02"]], True, {(0, 0): 0xFF, (0, 1): 1, (0, 2): 2}),
        ([bytes.fromhex(write) for write in U8G2 + ["00 40 11 02 B3", "40 AA BB"]], True, {(3, 18): 0xAA, (3, 19): 0xBB}),
        ([bytes.fromhex(write) for write in ["00 AF", "40 FF 01"]], True, {(0, 0): 0xFF, (0, 1): 1}),
        ([bytes.fromhex(write) for write in ["00 AF 20 00 21 7F 7F 22 00 01", "40 AA BB CC"]], True, {(0, 127): 0xCC, (1, 127): 0xBB}),
        ([bytes.fromhex(write) for write in ["00 AF 20 01 21 05 06 22 06 07", "40 01 02 03"]], True, {(6, 5): 1, (7, 5): 2, (6, 6): 3}),
        ([bytes.fromhex(write) for write in ["80 AF C0 11 80 B2 40 22", "00 21 03", "40 33", "00 05 20", "00 00", "40 44"]], True, {(0, 0): 0x11, (2, 1): 0x22, (2, 2): 0x33, (2, 3): 0x44}),
        ([bytes.fromhex(write) for write in ["00 A5", "40 55"]], False, {}),
    ]
    given = []
    for writes, _, _ in cases:
        vcd, us = bus_wave([list(write) for write in writes])
        given.append({"us": us, "vcd": base64.b64encode(vcd).decode(), "diagram": SHOWING, "times": [us]})
    for (writes, on, dots), lines in zip(cases, evaluated(OLED_LINES, given)):
        cells = {(page, column): byte for page, line in enumerate(lines[0][1:9]) for column, byte in enumerate(bytes.fromhex(line.split(" ")[4])) if byte}
        assert lines[0][0] == f"oled oled {'on' if on else 'off'}" and cells == dots, ([write.hex() for write in writes], lines[0][0], cells)


def check_broken_frames():
    """Boards with OLEDs whose firmware sends good and broken frames, made by tools/peers/boards.py: the scripts and the report at five times."""
    given, told = [], []
    for seed in BROKEN:
        with tempfile.TemporaryDirectory() as box:
            us, script = boards.make(seed, box), os.path.join(box, "script.txt")
            _, _, vcd = run(box, us, script, lambda stream: stream.read())
            times = [max(us * k // 5, 1) for k in (1, 3, 5, 4, 2)]
            with open(os.path.join(box, "diagram.json"), encoding="utf-8") as file:
                given.append({"us": us, "vcd": base64.b64encode(vcd).decode(), "diagram": json.load(file), "times": times})
            told.append([oled_lines(run(box, time, script)[1]) for time in times])
    for seed, lines, report in zip(BROKEN, evaluated(OLED_LINES, given), told):
        assert lines == report, f"board of seed {seed}"
    assert len({line for report in told for lines in report for line in lines if " page " in line and line.count("0") < 250}) > 20


# ---- Formats of UART

def uart_row(frames, bit, format_):
    """The changes of a line at level 1 on which these bytes are sent."""
    bits, parity, stops = int(format_[0]), format_[1], int(format_[2])
    times, levels, t = [0], [1], 100
    for byte in frames:
        ones = bin(byte).count("1") & 1
        row = [0] + [byte >> k & 1 for k in range(bits)] + ({"N": [], "E": [ones], "O": [1 - ones]}[parity]) + [1] * stops
        for level in row:
            if level != levels[-1]:
                times.append(t), levels.append(level)
            t += bit
    return times, levels, t


def check_formats():
    """Bytes in each format, one after another without a pause; read with the other parity they say so."""
    cases, given = [], []
    for format_ in ("8N1", "8E1", "8O1", "8N2", "7E1", "7O2", "7N1", "5N1", "6E2", "9N1", "9O1"):
        sent = [(37 * k + 5) % (1 << int(format_[0])) for k in range(40)]
        times, levels, end = uart_row(sent, 16, format_)
        cases.append((format_, sent))
        given.append([times, levels, end, format_])
    found = evaluated("given.map(([t, v, end, format]) => uartFrames(makeWave(Uint32Array.from(t), Uint8Array.from(v)), 16, end + 1, format).map(f => [f.from, f.to, f.value, f.text]))", given)
    for (format_, sent), frames in zip(cases, found):
        length = 16 * (1 + int(format_[0]) + (format_[1] != "N") + int(format_[2]))
        assert [frame[2] for frame in frames] == sent, (format_, frames)
        assert all(to - start == length and start == 100 + length * k for k, (start, to, _, _) in enumerate(frames)), format_
        assert not any(text.endswith("parity") for _, _, _, text in frames)
    times, levels, end = uart_row([0x41, 0x43], 16, "8E1")
    check_readings()
    wrong = evaluated("uartFrames(makeWave(Uint32Array.from(given[0]), Uint8Array.from(given[1])), 16, given[2] + 1, '8O1').map(f => f.text)", [times, levels, end])
    assert wrong == ["A parity", "C parity"], wrong


def check_readings():
    """The scripts find the same formats and times of sent bytes as serial_times.py, in each format, with pauses and without; and the
    times in each of the formats that fit."""
    cases = []
    for format_ in FORMATS:
        sent = bytes((37 * k + 5) % (1 << int(format_[0])) for k in range(30))
        for pause in (0, 450):
            wave, _ = sent_in(format_, sent, 136, lambda i, pause=pause: pause * (i % 4))
            cases.append((wave, sent, readings(wave, sent)))
    cases += [(wave, sent + b"?", []) for wave, sent, _ in cases[:2]]
    given = [[[edge >> 2 for edge in wave], [edge & 3 for edge in wave], list(sent), max((way.times[20] for way in ways), default=0)] for wave, sent, ways in cases]
    found = evaluated("given.map(([t, v, sent, until]) => { const wave = makeWave(Uint32Array.from(t), Uint8Array.from(v)), bytes = Uint8Array.from(sent), ways = sentReadings(wave, bytes);"
                      " return [ways.map(way => [way.formats, way.times]), ways.map(way => timesIn(wave, bytes, way.formats[0], until + 1))]; })", given)
    for (_, sent, ways), (same, parts) in zip(cases, found):
        assert same == [list(way) for way in ways], (sent, same, ways)
        for way, part in zip(ways, parts):
            assert part[:20] == way.times[:20] and part[-1] is None and len(part) == len(sent), (way, part)


# ---- The parts

def types_of_page():
    """The types in the table of docs/PARTS.md; `-or-2` after `wokwi-gate-and-2` is short for its gate."""
    types = []
    with open(PARTS_PAGE, encoding="utf-8") as file:
        for line in file.read().partition("\n## Simulated parts\n")[2].splitlines():
            if not line.startswith("| `wokwi-") and not line.startswith("| `board-"):
                continue
            for word in re.findall(r"`([^`]*)`", line.split("|")[1]):
                types.append("wokwi-gate" + word if word.startswith("-") else word)
    return types


def project_with(box, part, wires):
    uno = {"type": "wokwi-arduino-uno", "id": "uno"}
    parts = [uno] if part["type"] == uno["type"] else [uno, part]
    for name, text in {"wokwi.toml": "[wokwi]\nversion = 1\nfirmware = 'f.hex'\n", "f.hex": hex_text([0xCFFF]),
                       "diagram.json": json.dumps({"version": 1, "parts": parts, "connections": wires})}.items():
        with open(os.path.join(box, name), "w", encoding="utf-8") as file:
            file.write(text)


def check_parts():
    """Each type of docs/PARTS.md has an entry: the program accepts a wire to each of its pins, refuses one to another, and its wave has these pins."""
    cases = [(kind, {}) for kind in types_of_page()] + [("wokwi-lcd1602", {"pins": "i2c"}), ("wokwi-led", {"flip": "1"}), ("wokwi-7segment", {"common": "cathode"})]
    assert len(cases) > 20, cases
    entries = evaluated("given.map(([type, attrs]) => { const p = partOf({ type, id: 'p', attrs }, {}), known = Object.hasOwn(PARTS, type), e = entryOf(p, []); return known ? [Object.keys(pinsOf(e, p)), e.size] : null; })", cases)
    for (kind, attrs), entry in zip(cases, entries):
        assert entry, f"{kind} has no entry in parts.js"
        names, (width, height) = entry
        name = "uno" if kind == "wokwi-arduino-uno" else "p"
        with tempfile.TemporaryDirectory() as box:
            part = {"type": kind, "id": name, "attrs": attrs}
            project_with(box, part, [[f"{name}:{pin}", "uno:7", "", []] for pin in names if pin != "7" or name == "p"])
            _, _, vcd = run(box, 1, None, lambda stream: stream.read())
            told = {line.split(".", 1)[1] for line in plain_reading(vcd) if line.startswith(name + ".")}
            expected = set(names) - (SUPPLIES if name == "uno" else set())
            assert told == expected, (kind, attrs, told ^ expected)
            project_with(box, part, [[f"{name}:none", "uno:7", "", []]])
            try:
                run(box, 1, quiet=True)
                raise AssertionError(f"{kind} has any pin")
            except Refused:
                pass
        assert width > 0 and height > 0
    places = evaluated("given.map(([type, attrs]) => { const p = partOf({ type, id: 'p', attrs }, {}), e = entryOf(p, []); return [e.size, Object.values(pinsOf(e, p))]; })", cases)
    for (kind, _), ((width, height), spots) in zip(cases, places):
        assert all(-1 <= x <= width + 1 and -1 <= y <= height + 1 for x, y in spots), f"{kind}: a pin lies outside"


# ---- Breadboards

PLUGGED = {"version": 1, "parts": [{"type": "wokwi-arduino-uno", "id": "uno", "top": 300, "attrs": {}}, {"type": "wokwi-breadboard-half", "id": "bb", "top": -20, "left": -77, "attrs": {}},
                                   {"type": "wokwi-led", "id": "led", "attrs": {}}, {"type": "wokwi-logic-analyzer", "id": "arm", "left": 400, "attrs": {}}],
           "connections": [["led:A", "bb:10t.c", "", ["$bb"]], ["led:C", "bb:9t.c", "", ["$bb"]], ["bb:10t.a", "uno:13", "green", ["v0"]], ["bb:9t.e", "bb:9b.f", "black", ["v0"]],
                           ["bb:9b.j", "bb:bn.4", "black", ["v0"]], ["bb:bn.25", "uno:GND.1", "black", ["v0"]], ["bb:20t.a", "bb:21t.a", "red", []], ["arm:D0", "bb:10t.d", "orange", ["v0"]]]}
DRAWN = """{ const run = makeRun({ title: 'x', cycles: 99, diagram: given, names: ['uno.13', 'led.A', 'led.C'], of: [0, 0, 1], waves: [makeWave([0, 50], [0, 1]), makeWave([0], [0])] }), board = drawBoard(run);
  board.update({ t: 60, since: 60 });
  return boardPicture(board, ''); }"""
HOLES = """{ const run = makeRun({ title: 'x', cycles: 99, diagram: given, names: [], of: [], waves: [] }), entry = breadboardOf({ id: 'bb', columns: 30, rail: 25 }, run.wires), { pins } = entryOf(run.parts[1], []), { A, C } = pins(run.parts[1]);
  const [board] = run.scenery, { left, top } = meeting(board, entry, run.wires, new Map([['led:A', A], ['led:C', C]])), far = meeting(board, entry, run.wires, new Map([['led:A', A], ['led:C', [C[0], 99]]]));
  return [entry.pins, [left + entry.pins['10t.c'][0], top + entry.pins['10t.c'][1]], [far.left, far.top]]; }"""


def check_breadboards():
    """The board that lower.py kept is drawn with its holes and the editor's wires, each at its net's level; a plugged pin lies on its hole.
    A drawing that was made of other wires is not taken."""
    made = diagrams.Lowering(PLUGGED, {}).outcome()
    changed = dict(made, connections=[*made["connections"], ["uno:2", "led:A", "", []]])
    text, plain, (pins, hole, far) = evaluated(DRAWN, made), evaluated(DRAWN, changed), evaluated(HOLES, made)
    root = ET.fromstring(text)
    names = "{http://www.w3.org/2000/svg}"
    states = {element.find(names + "title").text: element.get("class") for element in root.iter() if element.find(names + "title") is not None and element.get("class")}
    assert states["bb:10t.a – uno:13: 1"] == "wire v1" and states["bb:bn.25: 0"] == "pin v0" and states["bb:20t.a – bb:21t.a: z, nothing drives it"] == "wire vz", states
    assert states["arm:D0 – bb:10t.d: 1"] == "wire v1" and "arm: wokwi-logic-analyzer, which was left out" in states and not any("led:A – bb" in title for title in states)
    holes = next(element for element in root.iter(names + "path") if element.get("class") == "holes").get("d")
    assert holes.count("M") == 30 * 10 + 4 * 25 and "breadboard" not in plain and "bb:" not in plain
    assert [round(x, 6) for x in hole] == [25, 42] and far == [-77, -20]
    assert [[round(pins[one][k] - pins[other][k], 6) for k in (0, 1)] for one, other in (("10t.c", "9t.c"), ("9b.f", "9t.e"), ("9b.j", "9t.e"))] == [[9.6, 0], [0, 28.8], [0, 67.2]]


# ---- Geometry

ROUTES = [
    ([0, 0], [30, 40], [], [[0, 0], [30, 0], [30, 40]]),
    ([0, 0], [30, 40], ["v0"], [[0, 0], [0, 40], [30, 40]]),
    ([0, 0], [30, 40], ["v10"], [[0, 0], [0, 10], [30, 10], [30, 40]]),
    ([0, 0], [30, 40], ["h5", "v-10"], [[0, 0], [5, 0], [5, -10], [30, -10], [30, 40]]),
    ([0, 0], [30, 40], ["v10", "*", "h-5"], [[0, 0], [0, 10], [25, 10], [25, 40], [30, 40]]),
    ([0, 0], [0, 40], ["v0"], [[0, 0], [0, 40]]),
]
# From a logic analyzer to an LED so near to the Uno that the way out of its pin would end in the Uno, and the Uno's box.
FREE = [{"at": [-106, -72], "box": [-100, -100, 22, -62]}, {"at": [265, -18], "box": [240, -60, 280, -10]}, [-14, 0, 274, 201]]
PLACES = [({"left": 53.8, "top": -65.65, "rotate": 90}, [58.8, 11.3], [0, 5.65], [83.2, -89.4]), ({"left": 0, "top": 0, "rotate": 180}, [10, 20], [0, 0], [10, 20])]


# Wires of examples/counter whose hints lead from one pin to a line on which the other pin lies: they say where pins are.
STRAIGHT = [("uno:9", "r1:2"), ("uno:10", "r2:2"), ("r0:1", "bit0:A"), ("r1:1", "bit1:A"), ("r2:1", "bit2:A"), ("gnd1:GND", "ground:J"), ("vcc1:VCC", "r3:2"),
            ("r3:1", "power:A"), ("vcc1:VCC", "uno:2"), ("uno:12", "r4:1"), ("r4:2", "clock:J"), ("clock:J", "uno:3")]
ENDS = """{ const run = makeRun({ title: '', cycles: 1, diagram: given, names: [], of: [], waves: [] }), spots = {};
  for (const part of run.parts) { const entry = entryOf(part, run.wires), place = placeOf(part, entry.size); for (const [name, spot] of Object.entries(pinsOf(entry, part))) spots[`${part.id}:${name}`] = place(spot); }
  return run.wires.filter(([a, b]) => spots[a] && spots[b]).map(([a, b, , hints]) => [a, b, walked(spots[a], hints).points.pop(), spots[b]]); }"""


def check_geometry():
    """Wires by their hints, wires without them around the Uno, and turned parts; in the counter's diagram each wire of STRAIGHT ends without another corner."""
    with open(os.path.join(examples.folder_of("counter"), "diagram.json"), encoding="utf-8") as file:
        ends = {(a, b): (end, pin) for a, b, end, pin in evaluated(ENDS, json.load(file))}
    for wire in STRAIGHT:
        (x, y), (u, v) = ends[wire]
        assert min(abs(x - u), abs(y - v)) < 0.05, (wire, x - u, y - v)
    routes, places = evaluated("[given[0].map(([a, b, hints]) => routeOf(a, b, hints)), given[1].map(([part, size, spot]) => placeOf(part, size)(spot))]", [ROUTES, PLACES])
    for (_, _, hints, points), found in zip(ROUTES, routes):
        assert found == points, (hints, found)
    for (part, _, _, spot), found in zip(PLACES, places):
        assert [round(x, 6) for x in found] == spot, (part, found)
    way = evaluated("{ const [from, to, uno] = given, points = freeRoute(from, to, [from.box, to.box, uno], 19); return points.slice(1).map((point, i) => [points[i], point, goesThrough(points[i], point, uno)]); }", FREE)
    assert not any(through for _, _, through in way), way


# Parts that lower.py makes of one: a rotary encoder, and ten LEDs of one bar.
ENCODER = [("wokwi-slide-switch", "encoder1-clk"), ("wokwi-slide-switch", "encoder1-dt"), ("wokwi-pushbutton", "encoder1-sw")]
BAR = [("wokwi-led", f"bargraph1-{n}") for n in range(1, 11)]
# A Nano, and parts around it that would be below an Uno in its place.
NANO = [{"type": "wokwi-arduino-uno", "as": "wokwi-arduino-nano", "id": "nano"}, {"type": "wokwi-led", "id": "led", "left": 20, "top": 90}, {"type": "wokwi-pushbutton", "id": "btn", "left": 190, "top": 20}]
NAMED = "{ const { parts, wires } = makeRun({ title: 'x', cycles: 1, diagram: given, names: [], of: [], waves: [] }); return apart(parts, wires).map(part => boxWithName(part, wires)); }"


def check_places():
    """Parts that a tool made of one part have room for their pins and names; the name of a breadboard is not on a part that covers its middle."""
    for group in (ENCODER, BAR):
        boxes = evaluated(NAMED, {"parts": [{"type": kind, "id": name, "top": -60, "left": 60} for kind, name in group], "connections": []})
        for (one, first), (other, second) in itertools.combinations(zip(group, boxes), 2):
            assert first[2] <= second[0] or second[2] <= first[0] or first[3] <= second[1] or second[3] <= first[1], (one, first, other, second)
    nano, *around = evaluated(NAMED, {"parts": NANO, "connections": []})
    assert nano == [0, 0, 169.7, 67.3] and all(box[0] >= nano[2] or box[1] >= nano[3] for box in around), (nano, around)
    levels = evaluated("{ const run = makeRun({ title: 'x', cycles: 9, diagram: given, names: ['nano.13'], of: [0], waves: [makeWave([0, 4], [0, 1])] }); return ['13.2', 'GND.3', '5V.2', '12.2'].map(pin => pinState(run, 'nano.' + pin, { t: 5 })); }", {"parts": NANO})
    assert levels == ["1", "0", "1", "z"], levels
    covered = dict(PLUGGED, parts=[dict(part, top=-45, left=50) if part["id"] == "led" else part for part in PLUGGED["parts"]])
    for diagram, place in ((PLUGGED, ("name", -27)), (covered, ("name", 188))):
        root = ET.fromstring(evaluated(DRAWN, diagrams.Lowering(diagram, {}).outcome()))
        found = [(text.get("class"), round(float(text.get("y")))) for text in root.iter("{http://www.w3.org/2000/svg}text") if text.text == "bb"]
        assert found == [place], (found, place)


def check_board():
    """A picture of each board is XML with its parts and wires, and shows what the run has at that time."""
    for name, us, part, words in (("button", 22000, "btn1", "button"), ("chip-counter", 3000, "count1", "counter"), ("latch", 8000, "notq", "gates")):
        script = examples.script_of(name)
        seen = seen_of(arguments([examples.folder_of(name), "--us", "60000" if name == "button" else "10000", "--samples", "0"] + (["--script", script] if script else [])))
        root = ET.fromstring(board_svg(seen, us * 16))
        titles = [title.text for title in root.iter("{http://www.w3.org/2000/svg}title")]
        assert any(title and title.startswith(part + ":") for title in titles), (name, words)
        wires = sum(1 for wire in seen.diagram["connections"] if not any(end.startswith("$") for end in wire[:2]))
        assert sum(1 for title in titles if title and " – " in title) == wires, (name, wires)
        assert not any(attribute.lower().startswith("on") or "href" in attribute for element in root.iter() for attribute in element.attrib)
    on, off = (evaluated("{ const run = await runOfPage(given[0].data, given[0].packed); return drawBoard(run).texts({ t: given[1], since: given[1] }); }", [given_of("button")[0], us * 16]) for us in (15000, 22000))
    assert dict(on)["btn1"] == "pressed" and dict(off)["btn1"] == "released" and dict(on)["led1"].startswith("on") and dict(off)["led1"].startswith("off"), (on, off)


# The Uno is above the potentiometer's name, wires go through those of r1 and r2 above and below, and the LED is at the right of r2.
CROWDED = {"parts": [{"type": "wokwi-arduino-uno", "id": "uno"}, {"type": "wokwi-potentiometer", "id": "pot1", "left": 60, "top": 200}, {"type": "wokwi-led", "id": "led1", "left": -92, "top": 140},
                     {"type": "wokwi-resistor", "id": "r1", "left": -130, "top": 40, "rotate": 90}, {"type": "wokwi-resistor", "id": "r2", "left": -130, "top": 160, "rotate": 90}],
           "connections": [["r1:1", "uno:13", "green", ["v-40"]], ["r1:2", "r2:1", "green", ["v0"]], ["r2:2", "uno:GND.2", "black", ["v40"]]]}
NAMES = {"pot1": ("name", 97.8, 286.6), "led1": ("name", -72, 136), "r1": ("name start", -89.95, 48.65), "r2": ("name end", -111.25, 168.65)}


def check_names():
    """Names lie beside wires and parts where there is room; names of pins in a row do not meet; a share of less than 10 ms has its microseconds;
    the colours that the editor has for wires are all different."""
    colors = evaluated("words(given).map(name => colorOf(name, null))", "black brown red orange gold green blue violet gray white cyan limegreen magenta purple yellow")
    assert len(set(colors)) == 15, colors
    names = {}
    for name in ("pot-serial", "seven-segment", "lcd-hello", "oled-hello", "shift-out", None):
        diagram = CROWDED
        if name:
            with open(os.path.join(examples.folder_of(name), "diagram.json"), encoding="utf-8") as file:
                diagram = json.load(file)
        picture = evaluated("boardPicture(drawBoard(makeRun({ title: 'x', cycles: 1, diagram: given, names: [], of: [], waves: [] })), '')", diagram)
        for group in ET.fromstring(picture).iter("{http://www.w3.org/2000/svg}g"):
            row = [text for text in group if text.tag.endswith("}text")]
            names = {text.text: (text.get("class"), round(float(text.get("x")), 2), round(float(text.get("y")), 2)) for text in row if text.get("class", "").startswith("name")} or names
            small = [(float(text.get("y")), float(text.get("x")), float(text.get("font-size")), text.text) for text in row if float(text.get("font-size", 9)) <= 5 and text.get("text-anchor") == "middle"]
            for (y, x, size, one), (v, u, _, other) in zip(sorted(small), sorted(small)[1:]):
                assert y != v or u - x > 0.34 * size * (len(one) + len(other)), (name, one, other)
    assert names == NAMES, names
    told = dict(evaluated("{ const run = await runOfPage(given.data, given.packed); return drawBoard(run).texts({ t: 400, since: 400 }); }", given_of("pulse")[0]))
    assert told["led1"] == "on, 23.5 % of the last 25 µs", told


SHOWING = {"parts": [{"type": "wokwi-arduino-uno", "id": "uno"}, {"type": "board-ssd1306", "id": "oled"}, {"type": "wokwi-membrane-keypad", "id": "keys", "left": 300},
                    {"type": "chip-screen", "id": "c", "left": 600}, {"type": "chip-screen", "id": "d", "left": 600}], "connections": []}


def check_showing():
    """Dots of an OLED, keys of a keypad, and pixels and lines of chips, from what was made up for them."""
    vcd, us = bus_wave([[0x00, 0xAF], [0x40, 0x81, 0x81, 0x01]])
    drawn = evaluated("""{ const run = runFrom({ title: 'x', us: given[0], diagram: given[1], vcd: bytesOf(given[2]), report: '' }), board = drawBoard(run), out = [];
      for (const t of [10, 16 * given[0], 10]) { board.update({ t, since: t }); out.push(boardPicture(board, ''), board.texts({ t, since: t })); } return out; }""", [us, SHOWING, base64.b64encode(vcd).decode()])
    assert "M0 0h3v1h-3zM0 7h2v1h-2z" in drawn[2] and "M0 0h" not in drawn[0] and "M0 0h" not in drawn[4] and ["oled", "on, 5 dots lit"] in drawn[3] and ["oled", "off"] in drawn[1], drawn[3]
    drawing = {"id": "c", "t": [160], "at": [8], "size": [8], "data": [255, 0, 0, 255, 0, 0, 0, 0], "lines": [[160, "hello"]]}, {"id": "d", "t": [160], "at": [0], "size": [4], "data": [0, 255, 0, 255], "lines": []}
    text = evaluated("""{ const run = makeRun({ title: 'x', cycles: 1600, diagram: given[0], script: '1us set keys 33', chips: { 'chip-screen': ['A'] }, modules: { 'chip-screen': { display: [2, 3] } }, names: [], of: [], waves: [] });
      run.playing = new Playing(run);
      for (const { id, lines, ...news } of given[1]) { const shown = run.playing.shown.get(id); shown.record.append({ ...news, data: Uint8Array.from(news.data) }); shown.lines.push(...lines); }
      const board = drawBoard(run);
      board.update({ t: 10, since: 10 }); const before = boardPicture(board, ''); board.update({ t: 200, since: 200 }); return [before, boardPicture(board, ''), board.texts({ t: 200, since: 200 })]; }""", [SHOWING, drawing])
    before, after, texts = text
    three = {"parts": [{"type": "wokwi-membrane-keypad", "id": "keys", "attrs": {"columns": "3"}}], "connections": []}
    pictures = evaluated("given.map(diagram => boardPicture(drawBoard(makeRun({ title: 'x', cycles: 9, diagram, names: [], of: [], waves: [] })), ''))", [SHOWING, three])
    assert [[f">{key}<" in picture for key in "1#D"] for picture in pictures] == [[True, True, True], [True, True, False]], "a keypad of three columns"
    ET.fromstring(before)
    tall = evaluated("boardPicture(drawBoard(makeRun({ title: 'x', cycles: 9, diagram: given, chips: { 'chip-screen': ['A'] }, modules: { 'chip-screen': { display: [1, 100] } }, names: [], of: [], waves: [] })), '')",
                     {"parts": [{"type": "chip-screen", "id": "c"}], "connections": []})
    top, screen = float(re.search(r'viewBox="\S+ (\S+) ', tall)[1]), float(re.search(r'<rect x="-2" y="(\S+)"', tall)[1])
    assert top <= screen < -400 and before.count('<rect x="-2"') == 2, f"a display is from {screen} on, its picture from {top} on"
    assert "M0 0h1v1h-1z" not in before and 'fill="#ff0000"' in after and 'fill="#00ff00"' in after and "M0 1h1v1h-1z" in after
    assert ["c", "alive\nhello"] in texts and ["keys", "closed: 1 5"] in texts, texts


def check_notes():
    """What a run left out, in words and at its time; parts with names of JavaScript's own."""
    with tempfile.TemporaryDirectory() as box:
        make_leaving(box)
        seen = seen_of(arguments([box, "--us", "1000"]))
        notes = evaluated("{ const run = await runOfPage(given.data, given.packed), board = drawBoard(run); board.update({ t: 9999, since: 9999 }); return run.notes; }", {"data": data_of(seen), "packed": packed(seen.waves.waves)})
    texts = [(note["part"], note["t"], note["text"]) for note in notes]
    assert len(texts) == 3 and texts[0][0] == "c1" and texts[0][1] == 0 and "unreachable" in texts[0][2], texts
    assert "halted" in texts[2][2] and "0xD0" in texts[1][2] and texts[1][1] < texts[2][1], texts


def check_sound():
    """What buzzers sound, from a wave: the tone's frequency, silence where nothing moves, and a tone far above hearing as near to none."""

    def square(hertz, begin, end):
        edges, half, at, level = [[0, 0]], 8_000_000 / hertz, begin, 1
        while at < end:
            edges.append([round(at), level])
            at, level = at + half, 1 - level
        return [*edges, [round(end), 0]] if edges[-1][1] else edges

    waves = [square(440, 4_000_000, 12_000_000), square(100_000, 0, 16_000_000), [[0, 1]]]
    found = evaluated("""given.map(edges => { const diagram = { parts: [{ type: 'wokwi-led', id: 'bz', as: 'wokwi-buzzer' }], connections: [] };
      const run = makeRun({ title: 'x', cycles: 16e6, diagram, names: ['bz.A', 'bz.C'], of: [0, 1], waves: [makeWave(edges.map(it => it[0]), edges.map(it => it[1])), makeWave([0], [0])] });
      const samples = buzzerSamples(run, 0), part = (from, to) => samples.slice(from, to), most = list => Math.max(...list.map(Math.abs)), crossings = list => list.filter((it, i) => i && it > 0 && list[i - 1] <= 0).length;
      return { count: samples.length, hertz: 2 * crossings(part(11025, 33075)), loud: most(part(11025, 33075)), before: most(part(0, 11000)), after: most(part(40000, 44100)), later: buzzerSamples(run, 8e6).length }; })""", waves)
    tone, high, still = found
    assert tone["count"] == 44100 and tone["later"] == 22050, tone
    assert abs(tone["hertz"] - 440) <= 2 and 0.1 < tone["loud"] <= 0.5, tone
    assert tone["before"] == 0 and tone["after"] < 0.001, tone
    assert high["loud"] < 0.06 and still["loud"] == 0, (high, still)


def check_sensors():
    """Each part with controls is drawn as itself, with what it is set to, and its hidden source nowhere."""
    table, given, names = diagrams.table(), [], []
    for kind, rule in {**table["lowered"], **table["left out"]}.items():
        if "controls" not in rule:
            continue
        parts = [{"type": "wokwi-arduino-uno", "id": "uno", "top": 300}, {"type": kind, "id": "it"}, {"type": "wokwi-ir-receiver", "id": "ir", "left": 300}]
        made = diagrams.Lowering({"version": 1, "parts": parts, "connections": []}, {}).outcome()
        name, control = next(iter(rule["controls"].items()))
        value = "7" if "words" in control else moves.number_text(control["min" if float(control["default"]) == control["max"] else "max"])
        script, seen = moves.expanded(f"5us set it {name} {value}\n", made)
        given.append({"diagram": made, "script": script, "controls": moves.controls_of(made, seen)})
        names.append((kind, name, value, control.get("unit", "")))
    drawn = evaluated("""given.map(({ diagram, script, controls }) => { const run = makeRun({ title: 'x', cycles: 16e6, diagram, script, controls, names: [], of: [], waves: [] }), board = drawBoard(run), out = [];
      for (const t of [10, 4e6]) { board.update({ t, since: t }); out.push(boardPicture(board, ''), Object.fromEntries(board.texts({ t, since: t }))); } return out; })""", given)
    assert len(drawn) > 15
    for (kind, name, value, unit), (before, _, after, words) in zip(names, drawn):
        ET.fromstring(before)
        ET.fromstring(after)
        assert f"<title>it: {kind}</title>" in after and "it-control" not in after, kind
        assert f"{name} {value}" in words.get("it", "") or before != after, f"{kind}: {words}"
        if unit and kind != "wokwi-ky-040":
            assert words["it"].startswith(f"{name} {value} {unit}"), words
            assert f">{value} {unit}<" in after and f">{value} {unit}<" not in before, kind


def everything():
    bad, decoders = 0, {}
    steps = [("every edge and byte in the scripts", lambda: decoders.update(check_reads())), ("frames", lambda: check_frames(decoders)), ("parts", check_parts),
             ("breadboards", check_breadboards), ("geometry", check_geometry), ("places of parts", check_places), ("boards", check_board), ("names", check_names), ("notes", check_notes), ("sensors", check_sensors), ("sound", check_sound), ("displays", check_showing), ("formats of UART", check_formats), ("what an OLED is told", check_writes), ("how oled-hello begins", check_beginning),
             ("OLEDs on broken frames", check_broken_frames), ("oled-hello at fifty times", lambda: check_oled("oled-hello")), ("lcd-hello at fifty times", lambda: check_display("lcd-hello")), ("lcd-i2c at fifty times", lambda: check_display("lcd-i2c"))]
    for name, step in steps:
        try:
            step()
            print(f"look, {name}: ok", flush=True)
        except EngineMissing as missing:
            print(f"look, scripts: skipped, {missing}", file=sys.stderr)
            return bad
        except (AssertionError, RuntimeError, Refused, KeyError, StopIteration, ET.ParseError) as error:
            print(f"look, {name}: failed: {type(error).__name__} {error}", flush=True)
            bad = 1
    return bad


if __name__ == "__main__":
    sys.exit(everything())
