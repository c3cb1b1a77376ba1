#!/usr/bin/env python3
"""Makes crates/sim_rows/data/cuts.rows: how firmware, a diagram, a module and a wave are refused of which only the first bytes are there.

    tools/peers/cuts.py           writes the rows
    tools/peers/cuts.py --check   writes nothing, and ends with 1 where the rows that are there are others

What it expects is a second reading of docs/REFUSALS.md over the four files, apart from the program: Python's own reader for the diagram,
sections and their sizes for the module, lines for firmware and wave.
"""
import json
import pathlib
import sys

DATA = pathlib.Path(__file__).resolve().parents[2] / "crates" / "sim_rows" / "data"

HEAD = """\
# Each file after each of its bytes, as tools/peers/cuts.py has worked it out.
no files
file p/wokwi.toml inverter.toml
file p/blink.hex blink.hex
file p/diagram.json inverter.json
file p/inverter.wasm inverter.wasm
text p/inverter.json {"name": "inverter", "pins": ["IN", "OUT", "GND", "VCC"]}
file w.vcd inverter.vcd
"""


def firmware(text):
    """The refusal of firmware that is right but for its end, or None."""
    lines = text.splitlines()
    for number, line in enumerate(lines, 1):
        count = int(line[1:3], 16) if len(line) > 2 else 0
        if len(line) < 11 or len(line) != 11 + 2 * count:
            return f"22 HexLength line {number}"
        if line[7:9] == b"01":
            return None
    return f"26 HexNoEnd line {len(lines) + 1}"


def diagram(text):
    """The refusal of a diagram that is right but for its end, or None."""
    try:
        json.loads(text)
    except ValueError:
        return "40 JsonText"
    return None


def sections(module):
    """The end of each section of a whole module, and its id."""
    at = 8
    while at < len(module):
        section, size, shift = module[at], 0, 0
        at += 1
        while True:
            size |= (module[at] & 0x7F) << shift
            shift += 7
            at += 1
            if module[at - 1] < 0x80:
                break
        at += size
        yield at, section


def module(whole, k):
    """The refusal of the first k bytes of a module that is right and exports chipInit, or None."""
    ended = {end: section for end, section in sections(whole)}
    if k < 8:
        return "60 WasmMagic byte k"
    if k != 8 and k not in ended:
        return "61 WasmCut byte k"
    there = {section for end, section in ended.items() if end <= k}
    functions, exports, code = 3, 7, 10
    if functions in there and code not in there:
        return "68 WasmCount byte k"
    return None if exports in there else "77 ChipInit"


def wave(whole, k):
    """The refusal of the first k bytes of a wave that is right, or None."""
    if k == len(whole):
        return None
    line = whole[:k].count(b"\n") + 1
    if k < whole.index(b"\n", whole.index(b"$enddefinitions")) + 1:
        return f"90 WaveHead line {line}"
    if not whole[:k].endswith(b"\n"):
        return f"91 WaveLine line {line}"
    return f"94 WaveEnd line {line - 1}"


def table(name, answers):
    """The row's line for the cuts of a file, and one for each of its neighbouring cuts with one refusal."""
    lines = [f"cut {name} 0 {len(answers) - 1}"]
    first = 0
    for k, answer in enumerate(answers):
        if k + 1 == len(answers) or answers[k + 1] != answer:
            if answer:
                lines.append(f"refused {first} {k} {answer}")
            first = k + 1
    return lines


def rows():
    names = ("blink.hex", "inverter.json", "inverter.wasm", "inverter.vcd")
    flashed, drawn, chip, played = ((DATA / name).read_bytes() for name in names)
    parts = [
        ["run bare p/blink.hex --us 1"]
        + table("p/blink.hex", [firmware(flashed[:k]) for k in range(len(flashed) + 1)])
        + ["wave blink.vcd"],
        ["run check p"]
        + table("p/diagram.json", [diagram(drawn[:k]) for k in range(len(drawn) + 1)])
        + ["reports accepted"],
        ["run module p/inverter.wasm"]
        + table("p/inverter.wasm", [module(chip, k) for k in range(len(chip) + 1)])
        + ["reports accepted"],
        ["run replay p w.vcd --us 1 --vcd v.vcd"]
        + table("w.vcd", [wave(played, k) for k in range(len(played) + 1)])
        + ["opens v.vcd", "wave inverter.vcd"],
    ]
    return HEAD + "\n\n".join("\n".join(part) for part in parts) + "\n"


def main():
    place = DATA / "cuts.rows"
    if sys.argv[1:] == ["--check"]:
        return place.read_text() != rows()
    place.write_text(rows())
    return 0


sys.exit(main())
