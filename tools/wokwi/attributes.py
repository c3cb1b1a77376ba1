"""What the chips of a project do not get of their diagram: attributes that are no whole number or that the chip does not ask
for, and pins that it asks for and that its JSON file lacks. Which names a chip asks for is read from its module: from the calls
of attrInit and pinInit, and, of names that it makes as it runs, from the texts of its data. Attributes in thousandths
(sdk/wokwi-api.h) are handed over under a name of their own."""
import difflib
import json
import math
import os
import re
import sys
import tomllib

HERE = os.path.dirname(os.path.abspath(__file__))
sys.path.insert(0, os.path.join(HERE, "..", "..", "sdk"))
import wasm

THOUSANDTHS = ".thousandths"
WHOLE = re.compile(r"-?[0-9]{1,10}")
DECIMAL = re.compile(r"\s*[+-]?(?:[0-9]+(?:\.[0-9]*)?|\.[0-9]+)(?:[eE][+-]?[0-9]{1,3})?\s*")
TEXTS = re.compile(rb"[A-Za-z_][A-Za-z0-9_. -]{0,62}(?=\0)")


def is_whole(value) -> bool:
    """Whether a chip reads the value of an attribute as it is: a whole number from -2^31 to 2^32 - 1."""
    is_form = (
        isinstance(value, int)
        and not isinstance(value, bool)
        or isinstance(value, str)
        and bool(WHOLE.fullmatch(value))
    )
    return is_form and -(2**31) <= int(value) < 2**32


def thousandths(value):
    """The text of a decimal number in thousandths, rounded; None where it is none, or too large for 32 bits."""
    if (
        isinstance(value, bool)
        or not isinstance(value, (int, float, str))
        or isinstance(value, str)
        and not DECIMAL.fullmatch(value)
    ):
        return None
    number = float(value)
    made = round(number * 1000) if math.isfinite(number) else 2**32
    return str(made) if -(2**31) <= made < 2**31 else None


def asks_thousandths(image: bytes) -> bool:
    """Whether a module was built with attr_init_thousandths."""
    return THOUSANDTHS.encode() + b"\0" in image


def hand_over(attrs: dict, image: bytes) -> dict:
    """The attributes of a chip's part with those in thousandths, where its module asks for such: `distance` "23.5" is also
    `distance.thousandths` "23500". A whole number the kit reads itself."""
    made = dict(attrs)
    for name, value in attrs.items() if asks_thousandths(image) else ():
        number = None if is_whole(value) else thousandths(value)
        if number is not None:
            made[name + THOUSANDTHS] = number
    return made


def needs_thousandths(diagram: dict) -> bool:
    """Whether a chip of a diagram has a decimal fraction, so that lowering may have to hand it over."""
    chips = (part for part in diagram["parts"] if part["type"].startswith("chip-"))
    return any(
        not is_whole(value) and thousandths(value) is not None
        for part in chips
        for value in part.get("attrs", {}).values()
    )


def asked(image: bytes, function: str):
    """(the names that a module hands to attrInit or pinInit, whether these are all): not all where a name is computed."""
    try:
        given = wasm.read(image).names_given(function)
    except ValueError:
        return [], False
    return [name for name in given if name is not None], None not in given


def may_ask(image: bytes, name: str) -> bool:
    """Whether a chip may ask for an attribute. Where it computes names, each text of the module may be one, and each name with a
    number in it, as `text1`."""
    names, is_all = asked(image, "attrInit")
    if is_all or name in names:
        return name in names
    return name.encode() + b"\0" in image or bool(re.search("[0-9]", name))


def nearest(name: str, image: bytes, listed) -> str:
    """`; is it "threshold"?` by the names that a module asks for, its texts and the names that its JSON file lists, or nothing."""
    names, is_all = asked(image, "attrInit")
    known = names if is_all else [*names, *(text.decode() for text in TEXTS.findall(image)), *listed]
    close = difflib.get_close_matches(name, dict.fromkeys(known), 1, 0.6)
    return (
        f'; is it "{close[0]}"?'
        if close
        else f"; it asks for {', '.join(known)}"
        if is_all and 0 < len(known) < 9
        else ""
    )


def names_in(pin_file: str, key: str) -> list:
    """The pins, or the ids of `controls`, of a chip's JSON file."""
    try:
        with open(pin_file, encoding="utf-8") as file:
            found = json.load(file).get(key, [])
        return [it if isinstance(it, str) else it["id"] for it in found]
    except (OSError, ValueError, AttributeError, TypeError, KeyError):
        return []


def chips_of(project: str) -> dict:
    """By the type of the parts: (the module's bytes, the path of the pin file) of each chip of a project."""
    with open(os.path.join(project, "wokwi.toml"), "rb") as file:
        chips = tomllib.load(file).get("chip", [])
    found = {}
    for chip in chips:
        path = os.path.join(project, chip["binary"])
        with open(path, "rb") as file:
            found["chip-" + chip["name"]] = file.read(), path[: -len(".wasm")] + ".json"
    return found


def faults(project: str):
    """(kind, part, name, sentence) of each attribute that a chip does not read as it was given, kind `attribute`, and of each pin
    that it asks for and that its JSON file lacks, kind `pin`."""
    with open(os.path.join(project, "diagram.json"), encoding="utf-8-sig") as file:
        diagram = json.load(file)
    try:
        chips = chips_of(project)
    except (OSError, ValueError, KeyError, TypeError):
        return  # the program says what is wrong
    for part in diagram["parts"]:
        if part["type"] not in chips:
            continue
        image, pin_file = chips[part["type"]]
        attrs = part.get("attrs") if isinstance(part.get("attrs"), dict) else {}
        for name, value in attrs.items():
            if name.endswith(THOUSANDTHS) and asks_thousandths(image):
                continue
            shown = json.dumps(value, ensure_ascii=False)
            if not may_ask(image, name):
                if "as" in part:  # a part of Wokwi that this chip stands for: the page draws it by this
                    continue
                yield "attribute", part["id"], name, (
                    f'{part["id"]}: its attribute "{name}" ({shown}) is none that the chip asks for'
                    + nearest(name, image, names_in(pin_file, "controls"))
                )
            elif not is_whole(value) and not (asks_thousandths(image) and thousandths(value) is not None):
                yield "attribute", part["id"], name, (
                    f'{part["id"]}: the chip reads its attribute "{name}" as a whole number, and {shown} is none: the default was used. '
                    "A value has up to 10 digits, perhaps after a minus; a chip built with attr_init_thousandths takes decimals (docs/CHIPS.md)"
                )
        if "as" in part:  # such a chip has the pins that the part has, of all that it can have
            continue
        pins = names_in(pin_file, "pins")
        for name in dict.fromkeys(asked(image, "pinInit")[0]):
            if name not in pins:
                close = difflib.get_close_matches(name, pins, 1, 0.6)
                yield "pin", part["id"], name, (
                    f'{part["id"]}: the chip asks for the pin "{name}", which is not in its JSON file ({", ".join(filter(None, pins)) or "no pin"})'
                    + (f'; is it "{close[0]}"?' if close else "")
                    + ": it drives nothing and reads 0"
                )
