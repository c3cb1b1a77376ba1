"""What a page takes of a project's folder beside the run: its diagram, and the pins and modules of its custom chips."""
import base64
import json
import os
import tomllib

# What a module imports that prints or draws (docs/CHIPS.md, "What a chip can call").
SHOWING = (b"fd_write", b"framebufferInit")

CHIPS = os.path.join(os.path.dirname(os.path.abspath(__file__)), "..", "wokwi", "chips")
# The parts of the simulator whose picture a chip makes in a page, since it knows more than the report: the chip and its display.
VIEWERS = {"wokwi-lcd1602": ("hd44780", [16, 3])}


def diagram_of(folder):
    with open(os.path.join(folder, "diagram.json"), encoding="utf-8") as file:
        return json.load(file)


def tables_of(folder):
    """[(name, path of the module), ..] of the project's chips, and of those that a page alone plays (tools/wokwi/lower.py)."""
    with open(os.path.join(folder, "wokwi.toml"), "rb") as file:
        value = tomllib.load(file)
    shown = value.get("shown", [])
    shown = [it for it in shown if isinstance(it, dict) and all(isinstance(it.get(key), str) for key in ("name", "binary"))] if isinstance(shown, list) else []
    return [(chip["name"], chip["binary"]) for chip in [*value.get("chip", []), *shown]]


def pins_file(folder, binary):
    """The JSON file of a chip, which is next to its module."""
    with open(os.path.join(folder, binary[: -len(".wasm")] + ".json"), encoding="utf-8") as file:
        return json.load(file)


def chips_of(folder):
    """{'chip-NAME': [pin, ..]}: the pins of each custom chip, as its JSON file lists them."""
    return {"chip-" + name: pins_file(folder, binary)["pins"] for name, binary in tables_of(folder)}


def modules_of(folder, diagram):
    """{TYPE: {module, display}} of the chips of the diagram that can print or draw, and of what shows other parts: base64, and
    [width, height] or None. What shows another part has its `pins` too."""
    types, found = types_of(diagram), {}
    for name, binary in tables_of(folder):
        with open(os.path.join(folder, binary), "rb") as file:
            module = file.read()
        if f"chip-{name}" in types and any(call in module for call in SHOWING):
            display = pins_file(folder, binary).get("display")
            found[f"chip-{name}"] = {"module": base64.b64encode(module).decode(), "display": display and [display["width"], display["height"]]}
    return found | {kind: viewer_of(kind) for kind in VIEWERS if kind in types}


def viewer_of(kind):
    """The chip that shows a part of the simulator in a page, as `modules_of` has it."""
    chip, display = VIEWERS[kind]
    with open(os.path.join(CHIPS, chip + ".wasm"), "rb") as file:
        module = file.read()
    return {"module": base64.b64encode(module).decode(), "display": display, "pins": pins_file(CHIPS, chip + ".wasm")["pins"]}


def drawn_of(diagram):
    """What tools/wokwi/lower.py kept of the editor's drawing."""
    drawn = diagram.get("drawn")
    return drawn if isinstance(drawn, dict) else {}


def all_parts(diagram):
    """The parts of the board, and those that are only drawn."""
    return [part for part in [*diagram["parts"], *drawn_of(diagram).get("parts", [])] if isinstance(part, dict)]


def types_of(diagram):
    return {part.get("type") for part in all_parts(diagram)}


def played_in(diagram, modules):
    """The names of pins, or ids of parts, on whose whole wave rests what a page plays."""
    ids = {part.get("id") for part in all_parts(diagram) if part.get("type") in modules}
    wires = [wire for wire in drawn_of(diagram).get("connections", []) if isinstance(wire, list) and len(wire) > 4 and isinstance(wire[4], str)]
    return ids | {wire[4] for wire in wires if any(isinstance(end, str) and end.split(":")[0] in ids for end in wire[:2])}


def uno_of(diagram):
    return next(part["id"] for part in diagram["parts"] if part["type"] == "wokwi-arduino-uno")


def displays_of(diagram):
    """The ids of the text displays and OLEDs: what they show rests on their whole wave."""
    return {part["id"] for part in diagram["parts"] if part["type"] in ("wokwi-lcd1602", "board-ssd1306")}
