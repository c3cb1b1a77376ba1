#!/usr/bin/env python3
"""Looks at a module that was just linked:  sdk/module.py MODULE NAME.wasm SOURCE ..

Says in words what the simulator would refuse it for by a number: no `chipInit`, or a function that is imported and is not there;
then it ends with 1. NAME.wasm is where the module will be. Where NAME.json is next to it, it also says which pins the sources
ask for that are not listed there; and what the sources do that is otherwise here than in Wokwi. The functions that there are, it
reads from wokwi-api.h.

    sdk/module.py --floats OBJECT ..

says which functions of the objects that clang made of a chip's sources calculate with floats."""
import json
import os
import re
import sys

import wasm

# imports of the C library that are there: those by which it prints
PRINTS = {"fd_close", "fd_fdstat_get", "fd_seek", "fd_write"}
# others, and what a chip calls to get them
SYSTEM = {
    "args_get": "the program's arguments",
    "args_sizes_get": "the program's arguments",
    "clock_res_get": "clock_getres",
    "clock_time_get": "time, clock or gettimeofday; get_sim_nanos is the time",
    "environ_get": "getenv",
    "environ_sizes_get": "getenv",
    "fd_read": "scanf, getchar or another function that reads a file",
    "path_open": "fopen or open",
    "poll_oneoff": "sleep or poll; a timer is the way to wait",
    "proc_exit": "exit; __builtin_trap() ends a chip",
    "random_get": "getentropy or arc4random; rand is there",
}
# parts of imports' names, and what stands in their place
HINTS = {
    "ADC": "pins are low or high",
    "DAC": "pins are low or high",
    "Float": "attributes are whole numbers: attr_init_thousandths and attr_read_thousandths give 23500 for 23.5",
    "tring": "attributes are whole numbers",
}
FLOATS = {0x7D: "float", 0x7C: "double"}


def header():
    """The functions that there are, by wokwi-api.h: {name}."""
    path = os.path.join(os.path.dirname(os.path.abspath(__file__)), "wokwi-api.h")
    with open(path, encoding="utf-8") as file:
        return set(re.findall(r'^CHIP_IMPORT\("(\w+)"\)', file.read(), re.M))


def complaint(it, known):
    """What is wrong with an import, from its second word on, or None."""
    if it.module == "wasi_snapshot_preview1" and it.name in PRINTS:
        return None
    if it.module == "wasi_snapshot_preview1":
        calls = SYSTEM.get(it.name, "files or the system")
        return f"{it.name} of the C library, which is not there: it comes from {calls}"
    if it.module != "env" or it.name not in known:
        hint = next((": " + text for part, text in HINTS.items() if part in it.name), "")
        return f"{it.module} {it.name}, which is not there{hint}"
    kinds = [kind for byte, kind in FLOATS.items() if byte in it.parameters + it.result]
    return f"{it.name} with a {kinds[0]}, and here it has whole numbers: use the wokwi-api.h of the kit" if kinds else None


def complaints(module, known):
    if module.exports.get("chipInit", (1, 0))[0] != 0:
        yield 'exports no chipInit: one of the files has the function `void chip_init(void)`, and includes "wokwi-api.h"'
    for it in module.functions():
        said = complaint(it, known)
        if said:
            yield f"imports {said}"


def unlisted_pins(list_of_pins, sources):
    """(source, pin) for each pin that is asked for by a text in the source and is not in the chip's list."""
    try:
        with open(list_of_pins, encoding="utf-8") as file:
            pins = json.load(file)["pins"]
    except (OSError, ValueError, KeyError, TypeError):
        return  # the simulator says what is wrong with the list
    for source in sources:
        with open(source, encoding="utf-8", errors="replace") as file:
            for pin in re.findall(r'\bpin_init\s*\(\s*"([^"\\\n]*)"', file.read()):
                if pin not in pins:
                    yield source, pin


def body_of(text, function):
    """What is between the braces of a function of a C source."""
    found = re.search(rf"\b{function}\s*\([^()]*\)\s*{{", text)
    depth, at = 1, found.end() if found else len(text)
    start = at
    while depth and at < len(text):
        depth += {"{": 1, "}": -1}.get(text[at], 0)
        at += 1
    return text[start:at]


def otherwise(source):
    """Sentences about what a source does that is otherwise here than in Wokwi."""
    with open(source, encoding="utf-8", errors="replace") as file:
        text = re.sub(r"//[^\n]*|/\*.*?\*/", "", file.read(), flags=re.S)
    if re.search(r"\bpin_read\s*\(", body_of(text, "chip_init")):
        yield f"{source} reads a pin in chip_init, where every pin reads 0: read it in a callback"
    for config in re.findall(r"\bi2c_config_t\s+\w+\s*=\s*\{(.*?)\}\s*;", text, flags=re.S):
        if re.search(r"\.\w+\s*=", config) and not re.search(r"\.address\s*=\s*(?!0[xX]?0*\s*[,}\n]|0[xX]?0*\s*$)", config):
            yield f"{source} sets an I2C slave up at address 0: it is never called here (in Wokwi it is called for every address)"


def calculating(objects):
    """(the name of a source, its functions that have an instruction on floats) of objects that clang wrote."""
    for path in objects:
        with open(path, "rb") as file:
            module = wasm.Module(file.read())
        names, first = wasm.function_names(module), len(module.functions())
        found = [names.get(first + place, "a function") for place, body in enumerate(module.bodies) if any(map(wasm.is_float, wasm.instructions(body)))]
        if found:
            yield os.path.splitext(os.path.basename(path))[0], found


def say_floats(objects):
    """Says which functions of a chip calculate with floats. Those of the C library do no harm while they are not called."""
    for stem, functions in calculating(objects):
        shown = ", ".join(functions[:8]) + (" and others" if len(functions) > 8 else "")
        verb = "calculates" if len(functions) == 1 else "calculate"
        say(f"{shown} of {stem} {verb} with float or double: the chip ends with trap 14 where it comes there. Use integers, as thousandths (docs/CHIPS.md)")


def say(text):
    print("sdk/build.sh:", text, file=sys.stderr)


def main(words):
    if words[1:2] == ["--floats"]:
        say_floats(words[2:])
        return 0
    if len(words) < 3:
        print("usage: sdk/module.py MODULE NAME.wasm SOURCE .. | sdk/module.py --floats OBJECT ..", file=sys.stderr)
        return 2
    with open(words[1], "rb") as file:
        module = wasm.Module(file.read())
    said = list(complaints(module, header()))
    for text in said:
        say(f"{words[2]} {text}")
    if said:
        say("docs/CHIPS.md explains what a chip can call")
        return 1
    list_of_pins = os.path.splitext(words[2])[0] + ".json"
    for source, pin in unlisted_pins(list_of_pins, words[3:]):
        say(f'{source} asks for the pin "{pin}", which is not in {list_of_pins}: pin_init answers NO_PIN')
    for source in words[3:]:
        for text in otherwise(source):
            say(text)
    return 0


if __name__ == "__main__":
    sys.exit(main(sys.argv))
