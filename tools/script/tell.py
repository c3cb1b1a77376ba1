"""What the script adds to a run, as sentences: what the report says was left out, and what the pages say of a refusal."""
import json
import os
import re
import shutil
import subprocess
import sys

import pages
import words

CYCLES_PER_US = 16
CONSOLE = 65_536  # bytes that are kept of what a chip prints
WAVE = 16_777_216  # bytes that a wave that is read may have
PLAYED = (".ino", ".pde", ".hex", ".elf")


def controls_hidden(text, lines=False):
    """Bytes with every control character as `?`, also those that UTF-8 makes of two bytes; line feeds stay if asked for."""
    kept = b"[\x00-\x09\x0b-\x1f\x7f]" if lines else b"[\x00-\x1f\x7f]"
    return re.sub(kept, b"?", re.sub(b"\xc2[\x80-\x9f]", b"?", text))


def shown(text, most=80):
    """A text of a file as it may be shown."""
    return controls_hidden(text[:most].encode("utf-8", "replace")).decode("utf-8", "replace")


def place_in_source(hex_file, word_address):
    """`, in loop at sketch.ino:12` where an ELF of the HEX file's name is beside it and avr-addr2line finds the place."""
    tool = shutil.which("avr-addr2line")
    elf = re.sub(r"\.hex$", ".elf", hex_file or "", flags=re.I)
    if not tool or elf == (hex_file or ""):
        return ""
    try:
        if b"\x7fELF" != open(elf, "rb").read(4):
            return ""
        asked = [tool, "-f", "-C", "-s", "-e", elf, hex(2 * word_address)]
        said = subprocess.run(asked, stdout=subprocess.PIPE, stderr=subprocess.DEVNULL, stdin=subprocess.DEVNULL, timeout=10, check=True)
    except (OSError, ValueError, subprocess.SubprocessError):
        return ""
    name, line = (said.stdout.decode("utf-8", "replace").split("\n") + ["", ""])[:2]
    known = "" if line.startswith("?") or line.endswith((":0", ":?")) else f" at {shown(line)}"
    return "" if name in ("", "??") else f", in {shown(name)}{known}"


def of_registers(part, addresses):
    """A sentence for each unit that a part's firmware wrote to and that is not there."""
    known, units, others = pages.registers(), {}, []
    for address in addresses:
        name, unit = known.get(address, (None, None))
        if unit:
            units.setdefault(unit, []).append(f"{name} 0x{address:02X}")
        else:
            others.append(f"0x{address:02X}")
    page = "docs/REPORT.md, \"Registers that are not there\""
    for unit, names in units.items():
        yield f"{part}: the firmware wrote to {unit} ({', '.join(names)}), which is not simulated: nothing happened ({page})"
    if others:
        more = f" and {len(others) - 8} more addresses" if len(others) > 8 else ""
        yield f"{part}: the firmware wrote to {', '.join(others[:8])}{more}, where no register is: nothing happened ({page})"


def micros(cycle):
    return f"{cycle / CYCLES_PER_US:.10g}"


def cut_consoles(report):
    """(part, sentence) of each chip that printed as much as is kept of it: what came after that is not in the report."""
    printed = {}
    for line in report.splitlines():
        facts = line.split(" ", 3)
        if facts[0] == "chip" and facts[2:3] == ["|"]:
            printed[facts[1]] = printed.get(facts[1], 0) + len(facts[3] if len(facts) > 3 else "") + 1
    for part, count in printed.items():
        if count >= CONSOLE:
            yield part, f"{part}: what this chip printed after its first {CONSOLE:,} bytes is not shown (docs/REPORT.md)"


def omitted(facts):
    """What a line `uno ID omits NAME at CYCLE 0xAA 0xVV` says: (register, sentence, whether a test fails), or None."""
    if facts[0] != "uno" or facts[2:3] != ["omits"] or len(facts) != 8:
        return None
    return pages.omissions().get(facts[3], {}).get(int(facts[6], 16))


def decided(report):
    """A report's lines without those of registers of which its lines `omits` say more: where it has these, or a live board was asked
    for them and has none (a line `omitted`), the lines `ignored` of the table's addresses say nothing."""
    lines = report.splitlines()
    if not any(line.split(" ")[:1] == ["omitted"] or line.split(" ")[2:3] == ["omits"] for line in lines):
        return lines
    known = {address for rows in pages.omissions().values() for address in rows}
    return [line for line in lines if line.split(" ")[2:3] != ["ignored"] or int(line.split(" ")[3], 16) not in known]


def left_out(report, hex_file=None):
    """Sentences about what a report says did not happen as the firmware or a chip meant it."""
    written = {}
    for line in decided(report):
        facts = line.split(" ")
        row = omitted(facts)
        if row:
            yield f"{facts[1]}: {row[1]} ({row[0]} {facts[7]} after {micros(int(facts[5]))} us; docs/REPORT.md, \"What firmware asked for that is left out\")"
        if facts[0] == "uno" and len(facts) >= 5 and facts[2] == "pc":
            address, place = int(facts[3], 16), ""
            place = place_in_source(hex_file, address)
            if facts[4] == "halt":
                word = int(facts[5], 16)
                what = pages.halts().get(word, "no instruction of the ATmega328P")
                yield f"{facts[1]}: the core halted at word address {facts[3]}{place}, on the word {facts[5]}: {what} (docs/REPORT.md, \"A core that has halted\")"
            elif place:
                yield f"{facts[1]}: at the end the program counter is {facts[3]}{place}"
        elif facts[0] == "uno" and len(facts) == 4 and facts[2] == "ignored":
            written.setdefault(facts[1], []).append(int(facts[3], 16))
        elif facts[0] == "chip" and len(facts) == 6 and facts[2] == "trap":
            name, what, remedy = pages.trap(facts[3]) or ("", "", "")
            yield f"{facts[1]}: trap {facts[3]} ({name}) ended this chip after {micros(int(facts[5]))} us: {what}. What to do: {remedy} (docs/CHIPS.md, \"What ends a chip\")"
    yield from (text for _, text in cut_consoles(report))
    for part, addresses in written.items():
        yield from of_registers(part, addresses)


def item_of(file, kind, number):
    """The part's or wire's own name at that place of a diagram."""
    try:
        it = json.loads(words.text_of(file))[f"{kind}s"][number - 1]
        if kind == "part":
            return f"{it.get('id')} of type {it.get('type')}"
        return f"{it[0]} to {it[1]}"
    except (ValueError, KeyError, IndexError, TypeError, AttributeError, RecursionError):
        return None


def chip_of(file, number):
    """What wokwi.toml says of its chip of that number."""
    tables = re.split(r"(?m)^\s*\[\[\s*chip\s*\]\].*$", words.text_of(file))
    found = re.search(r"""(?m)^\s*name\s*=\s*["']([^"'\n]*)["']""", tables[number]) if number < len(tables) else None
    return f"the one named {found[1]}" if found else None


def line_of(file, number):
    lines = words.text_of(file, 16_777_216).split("\n")
    return f"\"{lines[number - 1].rstrip()}\"" if 0 < number <= len(lines) and lines[number - 1].strip() else None


def can_play(folder):
    """Whether a folder has a diagram or a sketch, of which `play` makes a project."""
    try:
        return any(name == "diagram.json" or name.lower().endswith((".ino", ".pde")) for name in os.listdir(folder))
    except OSError:
        return False


def no_project(command, folder):
    """Sentences about a word that should be a project's folder and is not."""
    play = f"./mudflatjar play {shown(folder)}" + (" --page PAGE.html" if command == "look" else "")
    if not os.path.lexists(folder):
        yield f"there is no folder {shown(folder)}"
    elif not os.path.isdir(folder):
        remedy = f"{play} runs it on an Uno alone" if folder.lower().endswith(PLAYED) else "docs/PROJECTS.md says what is in one"
        yield f"{shown(folder)} is a file, and {command} takes a project's folder: {remedy}"
    elif not os.path.lexists(f"{folder}/wokwi.toml"):
        remedy = f": {play} builds its sketch and runs it all the same" if can_play(folder) else ""
        yield f"{shown(folder)} has no wokwi.toml, which names a project's firmware (docs/PROJECTS.md){remedy}"


def unread(given):
    """Sentences about a file that was missing, or that could not be read, where a word of the call is of another kind."""
    for folder in words.folders(given):
        yield from no_project(given[0], folder)
    file = words.firmware(given)
    if given[0] == "bare" and file and os.path.isdir(file):
        yield f"{shown(file)} is a folder, and bare takes a HEX file: ./mudflatjar run {shown(file)} --us N runs a project"


def unwritten(given):
    """Sentences about outputs that cannot be made."""
    for name, file in words.outputs(given):
        folder = os.path.dirname(file) or "."
        if os.path.isdir(file):
            yield f"{name} {shown(file)}: it is a folder"
        elif not os.path.isdir(folder):
            yield f"{name} {shown(file)}: there is no folder {shown(folder)}"
        elif not os.access(file if os.path.lexists(file) else folder, os.W_OK):
            yield f"{name} {shown(file)}: you may not write it"


def kit():
    """The kit's two modules, which read modules of chips."""
    folder = os.path.join(os.path.dirname(os.path.realpath(__file__)), "..", "..", "sdk")
    if folder not in sys.path:
        sys.path.append(folder)
    import module
    import wasm

    return module, wasm


def chip_module(file):
    """A module as the kit reads it; None where it is none."""
    try:
        with open(file, "rb") as it:
            return kit()[1].Module(it.read(1_048_576))
    except (OSError, ValueError, ImportError):
        return None


def import_of(file, number):
    """The name of an import of a module, from 1 on, and why it is refused."""
    module = chip_module(file)
    if not module or not 0 < number <= len(module.imports):
        return None
    it = module.imports[number - 1]
    kinds = {0x7F: "i32", 0x7E: "i64", 0x7D: "float", 0x7C: "double"}
    types = lambda codes: ", ".join(kinds.get(code, "?") for code in codes) or "nothing"
    why = kit()[0].complaint(it, kit()[0].header()) if it.kind == 0 else None
    form = f" ({types(it.parameters)} to {types(it.result)})" if it.kind == 0 else ""
    more = "; a module that was made for Wokwi's simulator alone has it so: build its source with sdk/build.sh" if why and "whole numbers" in why else ""
    return f"{it.module} {it.name}{form}" + (f", {why.split(', ', 1)[1]}{more}" if why and ", " in why else "")


def too_much(file, place):
    """Which of the three causes of 79 it is, with the number that the module has."""
    if place[:1] == ["function"]:
        return "the body's expression has more than 1,024 operands at once. What to do: split it"
    module = chip_module(file)
    for pages, _ in module.memories if module else ():
        if pages > 64:
            return f"the memory begins with {pages:,} pages of 64 KiB ({pages * 65536:,} bytes), and 64 is the most. What to do: fewer static data, -Wl,--initial-memory, -z stack-size"
    for entries, _ in module.tables if module else ():
        if entries > 8192:
            return f"the table begins with {entries:,} entries, and 8,192 is the most. What to do: fewer functions whose address is taken"
    return None


def of_a_file(file, number, at):
    """What a file is that was refused for its first bytes or its length, where that can be seen."""
    try:
        with open(file, "rb") as it:
            begin, size = it.read(16), os.path.getsize(file)
    except OSError:
        return
    if number == 20 and begin[:4] == b"\x7fELF":
        yield f"{shown(file)} is an ELF file, and a firmware is Intel HEX here: ./mudflatjar play takes it, or avr-objcopy -O ihex -R .eeprom {shown(file)} firmware.hex"
    elif number == 10 and begin[:1] == b"$" and size > WAVE:
        yield f"the wave has {size:,} bytes, and {WAVE:,} is the most: a run of a shorter --us writes a shorter one"


def of_chips(folder):
    """Sentences about attributes and pins that the chips of a project do not get (tools/wokwi/attributes.py); none where it has no
    chip, or where Python is older than that needs."""
    if sys.version_info < (3, 11) or not any(name == "binary" for name, _ in words.named_in(folder)):
        return
    tools = os.path.join(os.path.dirname(os.path.realpath(__file__)), "..", "wokwi")
    if tools not in sys.path:
        sys.path.append(tools)
    try:
        import attributes
    except ImportError:
        return
    for _, _, _, text in attributes.faults(folder):
        yield text


def missing(line):
    """Sentences about a line `FILE: missing` of what a project names."""
    file = line[: -len(": missing")] if line.endswith(": missing") else ""
    folder, stem = os.path.dirname(file), os.path.splitext(file)[0]
    source = next((it for it in (f"{stem}.c", f"{stem}.chip.c") if os.path.isfile(it)), None)
    if file.endswith(".wasm"):
        remedy = f": sdk/build.sh -o {shown(file)} {shown(source)} builds it" if source else ": its source is not next to where it was looked for"
        yield f"this chip is not built{remedy}" + (f"; ./mudflatjar play {shown(folder)} does too" if source and can_play(folder) else "")
    elif file.lower().endswith((".hex", ".elf")):
        yield "the firmware that wokwi.toml names is not there" + (f": ./mudflatjar play {shown(folder)} builds the sketch" if can_play(folder) else "")


def refused(line):
    """Sentences about a line `FILE: refused 44 PinUnknown connection 3`."""
    found = re.fullmatch(r"(.*): refused ([0-9]+) [A-Za-z0-9]+((?: [a-z]+ [0-9]+)*)", line, re.S)
    if not found:
        return
    file, number, place = found[1], int(found[2]), found[3].split()
    kind, at = (place[0], int(place[1])) if len(place) == 2 else (None, 0)
    if kind in ("part", "connection"):
        it = item_of(file, kind, at)
    elif kind == "chip":
        it = chip_of(file, at)
    elif kind == "import":
        it = import_of(file, at)
    else:
        it = line_of(file, at) if kind == "line" else None
    found_out = list(of_a_file(file, number, at))
    if it and not found_out:
        yield f"{kind} {at} is {shown(it, 400 if kind == 'import' else 80)}"
    yield from found_out
    row, page = pages.refusal(number)
    cause = too_much(file, place) if number == 79 else None
    if cause:
        yield f"{row[0]}: {cause} ({page})"
        return
    if row:
        yield f"{row[0]}: {row[1]}. What to do: {row[2]} ({page})"
