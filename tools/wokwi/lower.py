#!/usr/bin/env python3
"""Makes of a folder as Wokwi's editor writes it one that the simulator runs:  tools/wokwi/lower.py [--anyway] FOLDER OUT

FOLDER may be a ZIP archive of one.

Breadboards become wires, parts that the simulator lacks become parts and chips that it has, or are left out with their
wires kept; a sketch is built where there is no firmware, and chips in C where there is no module. It says on standard
error what it did. Where it can't do something it says what, by part and wire, writes nothing and ends with 1; with
--anyway it leaves such parts and wires out, if what stays is a board. docs/PROJECTS.md, "A folder of Wokwi's editor", has the rest."""
import json
import os
import re
import shutil
import subprocess
import sys
import tempfile
import tomllib

HERE = os.path.dirname(os.path.abspath(__file__))
sys.path.insert(0, HERE)
import archive
import attributes
import diagram as diagrams
import firmware as firmwares
import moves
import sketch as sketches

CHIPS = os.path.join(HERE, "chips")
SERVERS = ("gdbServerPort", "rfc2217ServerPort")  # of wokwi.toml: no command here takes them
BUILD = os.path.join(HERE, "..", "..", "sdk", "build.sh")


class Fault(Exception):
    """A file that can't be used."""


def no_number(text):
    raise ValueError(f"{text} is no number")


def read_json(path, what):
    try:
        with open(path, encoding="utf-8-sig") as file:
            return json.load(file, parse_constant=no_number)
    except FileNotFoundError:
        raise Fault(f"{path} is missing") from None
    except OSError as fault:
        raise Fault(f"{path}: {fault.strerror}") from None
    except (ValueError, RecursionError) as fault:
        raise Fault(f"{path} is no {what}: {fault}") from None


def read_diagram(folder):
    value = read_json(os.path.join(folder, "diagram.json"), "diagram")
    fault = diagrams.shape_fault(value)
    if fault:
        raise Fault(f"{os.path.join(folder, 'diagram.json')}: {fault}")
    return value


def read_settings(folder, say=lambda text: None):
    """(the firmware's path or None, {name: path of the module}) by wokwi.toml, which may be absent. Where the firmware is not there
    and its `elf` is, that is taken. Says which keys no command here takes."""
    firmware, chips, _ = all_settings(folder, say)
    return firmware, chips


def all_settings(folder, say=lambda text: None):
    """The same, and {name: path of the module} of the chips that a page alone plays."""
    path = os.path.join(folder, "wokwi.toml")
    if not os.path.exists(path):
        return None, {}, {}
    try:
        with open(path, "rb") as file:
            value = tomllib.load(file)
        firmware, elf = (value.get("wokwi", {}).get(key) for key in ("firmware", "elf"))
        if isinstance(elf, str) and os.path.isfile(os.path.join(folder, elf)) and not (isinstance(firmware, str) and os.path.isfile(os.path.join(folder, firmware))):
            firmware = elf
        for key in SERVERS:
            if key in value.get("wokwi", {}):
                say(f"wokwi.toml has {key}: no command here opens such a server, so it is not used")
        chips, shown = ({chip["name"]: chip["binary"] for chip in value.get(key, [])} for key in ("chip", "shown"))
        if not all(isinstance(it, str) for it in (firmware or "", *chips, *chips.values(), *shown, *shown.values())):
            raise ValueError("a name or a path is no text")
        return firmware, chips, shown
    except (ValueError, KeyError, TypeError, AttributeError) as fault:
        raise Fault(f"{path}: {fault}") from None


class Chip:
    """A chip of the project: its module or its source, and its pins."""

    def __init__(self, folder, name, binary):
        self.name, self.folder, self.binary = name, folder, binary
        self.module = os.path.join(folder, binary) if binary else None
        stems = [os.path.join(folder, f"{name}.chip"), os.path.join(folder, name)]
        if binary:
            stems.insert(0, os.path.splitext(self.module)[0])
        if not (self.module and os.path.exists(self.module)):
            modules = [f"{stem}.wasm" for stem in stems if os.path.exists(f"{stem}.wasm")]
            self.module = modules[0] if modules else None
        self.source = next((f"{stem}.c" for stem in stems if os.path.exists(f"{stem}.c")), None)
        self.text = next((f"{stem}.json" for stem in stems if os.path.exists(f"{stem}.json")), None)

    def pins(self):
        if not (self.module or self.source):
            named = f"{os.path.join(self.folder, self.binary)}, " if self.binary else ""
            raise Fault(f"chip {self.name} is not built and has no source: looked for {named}{self.name}.chip.wasm and {self.name}.chip.c in {self.folder}")
        if not self.text:
            raise Fault(f"chip {self.name}: {self.name}.chip.json is missing in {self.folder}")
        value = read_json(self.text, "file of pins")
        pins = value.get("pins") if isinstance(value, dict) else None
        if not isinstance(pins, list) or not all(isinstance(pin, str) for pin in pins):
            raise Fault(f"{self.text} has no array `pins` of texts")
        return [pin for pin in pins if pin]

    def unlisted(self):
        """The pins that the chip asks for and that its JSON file lacks, as its module or its source says."""
        if self.module:
            with open(self.module, "rb") as file:
                asked = attributes.asked(file.read(), "pinInit")[0]
        else:
            with open(self.source, encoding="utf-8", errors="replace") as file:
                asked = re.findall(r'\bpin_init\s*\(\s*"([^"\\\n]*)"', file.read())
        pins = self.pins()
        return [pin for pin in dict.fromkeys(asked) if pin not in pins]

    def wants_libc(self):
        """Whether the source includes headers of C's library, and the kit can link it."""
        with open(self.source, encoding="utf-8", errors="replace") as file, open(BUILD, encoding="utf-8") as build:
            return "--libc" in build.read() and bool(re.search(r"^\s*#\s*include\s*<(?:stdio|stdlib|string|math|ctype|time)\.h>", file.read(), flags=re.M))

    def moved(self, say):
        """The controls that a script can move, as a rule of moves.py; what keeps one from it is said. A module is as it was built."""
        rules, faults = moves.chip_rules(read_json(self.text, "file of pins"))
        if rules and self.module:
            faults, rules = [f"its controls keep their values: only a chip that is built from its source ({self.name}.chip.c, and no module) has what moves them"], {}
        elif rules and (diagrams.CONTROL in self.pins() or len(self.pins()) > 63):
            faults, rules = [f"its controls keep their values: they take a pin called {diagrams.CONTROL}"], {}
        for fault in faults:
            say(f"chip {self.name}: {fault}")
        return rules

    def put(self, out, stem, say):
        """Writes the module and the pin file, and returns the controls that a script can move."""
        module, rules = os.path.join(out, f"{stem}.wasm"), self.moved(say)
        if self.module:
            shutil.copyfile(self.text, os.path.join(out, f"{stem}.json"))
            shutil.copyfile(self.module, module)
            return {}
        say(f"building chip {self.name} from {os.path.basename(self.source)}")
        with tempfile.TemporaryDirectory() as work:
            for with_rules in ([rules, {}] if rules else [{}]):
                header = controls_header(with_rules, work)
                for words in ([], ["--libc"]) if self.wants_libc() else ([],):
                    ran = subprocess.run([BUILD, "--names", *words, *header, "-o", module, self.source], stdout=subprocess.PIPE, stderr=subprocess.STDOUT, text=True, errors="replace", check=False)
                    if not ran.returncode:
                        break
                if not ran.returncode:
                    break
        if ran.returncode:
            raise Fault(f"chip {self.name}: {ran.stdout.strip()}")
        if rules and not with_rules:
            say(f"chip {self.name}: its controls keep their values: it does not compile with sdk/controls.h")
        pin_file = read_json(self.text, "file of pins")
        with open(os.path.join(out, f"{stem}.json"), "w", encoding="utf-8") as file:
            json.dump(pin_file | ({"pins": [*pin_file["pins"], diagrams.CONTROL]} if with_rules else {}), file)
        for line in ran.stdout.splitlines():
            if line.strip() and not line.startswith(module) and not re.fullmatch(r"[0-9]+ warnings? generated\.", line):
                say(f"chip {self.name}: {line}")
        os.chmod(module, 0o644)
        return with_rules


def controls_header(rules, work):
    """The words for the compiler of a chip with these controls."""
    if not rules:
        return []
    rows = ", ".join(f'{{"{name}", {it["min"]}, {it["step"]}, {(it["max"] - it["min"]) // it["step"] + 1}}}' for name, it in rules.items())
    path = os.path.join(work, "controls.h")
    with open(path, "w", encoding="utf-8") as file:
        file.write(f'#define CHIP_CONTROLS {rows}\n#include "{os.path.join(os.path.dirname(os.path.realpath(BUILD)), "controls.h")}"\n')
    return [f"-include{path}"]


def wire_controls(lowering, made, chip, rules, say):
    """Gives each part that is a chip with controls its hidden source of levels, by which a script moves them."""
    for part in [it for it in made["parts"] if it["type"] == f"chip-{chip}"]:
        if len(made["parts"]) >= diagrams.MOST_PARTS or len(made["connections"]) >= diagrams.MOST_WIRES:
            say(f"{part['id']}: its controls keep their values: the board has no room for another part")
            continue
        source = lowering.new_id(part["id"] + "-control")
        place = {key: part[key] for key in ("top", "left") if key in part}
        made["parts"].append({"type": "board-source", "id": source, **place, "hide": True, "within": part["id"], "attrs": {"value": "0"}})
        made["connections"].append([f"{source}:OUT", f"{part['id']}:{diagrams.CONTROL}", "", []])
        made.setdefault("controls", {})[part["id"]] = {"type": part["type"], "attrs": part["attrs"], "ids": {"-control": source}, "rules": rules}
    if "drawn" in made:
        made["drawn"]["of"] = diagrams.mark_of(made["connections"])


def chips_of(folder, diagram, binaries):
    """The chips that wokwi.toml names, and those of parts whose source or module lies in the folder."""
    chips = {name: Chip(folder, name, binary) for name, binary in binaries.items()}
    for part in diagram["parts"]:
        name = part["type"][len("chip-"):]
        if part["type"].startswith("chip-") and name not in chips and not re.search(r"[/\0]", name):
            chip = Chip(folder, name, None)
            if chip.module or chip.source:
                chips[name] = chip
    return chips


def put_firmware(folder, named, out, say):
    """Writes OUT/firmware.hex: the file that wokwi.toml names, else the sketch built, else the only HEX file."""
    made = os.path.join(out, "firmware.hex")
    path = os.path.join(folder, named) if named else None
    place, main = sketches.sketch_of(folder)
    if not (path and os.path.isfile(path)):
        path = None
        if main:
            if named:
                say(f"the firmware that is named, {os.path.join(folder, named)}, is not there: the sketch is built")
            say(f"building {main}")
            try:
                sketches.build(place, main, made, say)
            except sketches.BuildFault as fault:
                raise Fault(f"{main}: {fault}") from None
            return
        files = [name for name in sorted(os.listdir(folder)) if name.endswith((".hex", ".elf"))]
        files = [name for name in files if not (name.endswith(".elf") and name[:-4] + ".hex" in files)]  # the same firmware with its lines
        if len(files) != 1:
            missing = f"the firmware that is named, {os.path.join(folder, named)}, is not there, and " if named else ""
            raise Fault(f"{missing}{folder} has no sketch, and " + (f"more than one HEX file: {', '.join(files)}" if files else "no firmware"))
        if named:
            say(f"the firmware that is named, {os.path.join(folder, named)}, is not there: {files[0]} is taken")
        path = os.path.join(folder, files[0])
    try:
        data = firmwares.as_hex(path)
    except ValueError as fault:
        raise Fault(f"{path}: {fault}") from None
    with open(made, "wb") as file:
        file.write(data)
    elf = os.path.splitext(path)[0] + ".elf"
    if os.path.isfile(elf):
        shutil.copyfile(elf, sketches.elf_beside(made))


def settings_text(chips, shown=()):
    """wokwi.toml with the firmware and (name, stem of the file) of each chip; `shown` are those that a page alone plays, which the
    simulator ignores."""
    quoted = lambda text: json.dumps(text)
    text = "[wokwi]\nversion = 1\nfirmware = 'firmware.hex'\n"
    for name, stem in chips:
        text += f"\n[[chip]]\nname = {quoted(name)}\nbinary = {quoted(stem + '.wasm')}\n"
    for name, stem in shown:
        text += f"\n[[shown]]\nname = {quoted(name)}\nbinary = {quoted(stem + '.wasm')}\n"
    return text


def put_own(out, name, own):
    """Writes a chip of ours as NAME: its module, and its pin file with the size of its display and the pins that it has here."""
    stem, size, pins = own
    shutil.copyfile(os.path.join(CHIPS, f"{stem}.wasm"), os.path.join(out, f"{name}.wasm"))
    file_of_pins = read_json(os.path.join(CHIPS, f"{stem}.json"), "file of pins")
    with open(os.path.join(out, f"{name}.json"), "w", encoding="utf-8") as file:
        json.dump(file_of_pins | ({"pins": pins} if pins else {}) | ({"display": size} if size else {}), file)


def lower(folder, out, anyway=False, firmware=None, edit=None, change=None, say=lambda text: None):
    """Writes into OUT, and returns what could not be done, a text each. `edit` may alter the diagram before; `change` the
    new one: it is given the Lowering, the diagram and OUT, and returns further chips. `firmware` is taken in place of the
    one that wokwi.toml names."""
    folder = os.path.abspath(folder)
    try:
        value = read_diagram(folder)
        if edit:
            edit(value)
        named, binaries, only_shown = all_settings(folder, say)
        if firmware and not os.path.isfile(firmware):
            raise Fault(f"{firmware}: the firmware that is named is not there")
        chips = chips_of(folder, value, binaries)
        lowering = diagrams.Lowering(value, {name: chip.pins() for name, chip in chips.items()})
        made = lowering.outcome()
        unlisted = [(name, pin, chip.pins()) for name, chip in chips.items() for pin in chip.unlisted()] if lowering.faults else []
    except Fault as fault:
        return [str(fault)]
    for name, pin, pins in unlisted:
        lowering.faults.append(f'chip {name} asks for the pin "{pin}", which is not in its JSON file ({", ".join(pins) or "no pin"})')
    for note in lowering.notes:
        say(note)
    if lowering.faults and not (anyway and lowering.is_board):
        return lowering.faults
    for fault in lowering.faults:
        say(f"left out: {fault}")
    try:
        os.makedirs(out, exist_ok=True)
        if os.path.samefile(folder, out):
            return [f"{out} is the folder itself: name another one to write to"]
        put_firmware(folder, os.path.abspath(firmware) if firmware else named, out, say)
        stems = []
        for name, chip in chips.items():
            stem = "chip-" + re.sub(r"[^A-Za-z0-9_-]", "_", name)
            while stem in (one for _, one in stems):
                stem += "_"
            rules = chip.put(out, stem, say)
            if rules:
                wire_controls(lowering, made, name, rules, say)
            stems.append((name, stem))
        shown, on_board = [], {part["type"] for part in made["parts"]}
        for name, binary in only_shown.items():
            Chip(folder, name, binary).put(out, f"shown-{len(shown)}", say)
            shown.append((name, f"shown-{len(shown)}"))
        for name, own in lowering.own_chips.items():
            put_own(out, name, own)
            (stems if f"chip-{name}" in on_board else shown).append((name, name))
        for part in made["parts"]:
            stem = next((stem for name, stem in stems if part["type"] == f"chip-{name}"), None)
            if stem:
                with open(os.path.join(out, f"{stem}.wasm"), "rb") as file:
                    part["attrs"] = attributes.hand_over(part["attrs"], file.read())
        if change:
            stems += change(lowering, made, out) or []
        with open(os.path.join(out, "diagram.json"), "w", encoding="utf-8") as file:
            file.write(diagrams.text_of(made))
        with open(os.path.join(out, "wokwi.toml"), "w", encoding="utf-8") as file:
            file.write(settings_text(stems, shown))
    except Fault as fault:
        return [str(fault)]
    except OSError as fault:
        return [f"{fault.filename}: {fault.strerror}"]
    return []


def main(words):
    anyway = "--anyway" in words
    words = [word for word in words if word != "--anyway"]
    if words == ["--help"]:
        print(__doc__)
        return 0
    if len(words) != 2 or any(word.startswith("-") for word in words):
        print(__doc__, file=sys.stderr)
        return 2
    say = lambda text: print(f"lower: {text}", file=sys.stderr)
    with tempfile.TemporaryDirectory() as work:
        try:
            folder = archive.unpack(words[0], work) if archive.is_archive(words[0]) else words[0]
            faults = lower(folder, words[1], anyway=anyway, say=say)
        except archive.ArchiveFault as fault:
            faults = [f"{words[0]}: {fault}"]
        except OSError as fault:
            faults = [f"{words[0]}: {fault.strerror}"]
    for fault in faults:
        say(fault)
    return 1 if faults else 0


if __name__ == "__main__":
    try:
        sys.exit(main(sys.argv[1:]))
    except KeyboardInterrupt:
        sys.exit(130)
