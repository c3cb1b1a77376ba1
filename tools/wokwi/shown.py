"""In words what a part shows that a chip stands for: from the rows of the chip's display. tools/look/page/shown.js draws it."""

import json
import os
import re
from collections.abc import Callable

Rows = dict[int, list[bytes]]  # of a display: by its number, the pixels of each row that is not all 0, four bytes each

# The segments of a digit, A in bit 0, as what it shows.
DIGITS = {
    0x3F: "0",
    0x06: "1",
    0x5B: "2",
    0x4F: "3",
    0x66: "4",
    0x6D: "5",
    0x7D: "6",
    0x07: "7",
    0x7F: "8",
    0x6F: "9",
    0x40: "-",
    0: " ",
}
BLANK = bytes(4)


def servo(rows: Rows) -> str:
    """The angle of the arm and the last pulse."""
    angle, low, high, is_set = rows.get(0, [BLANK])[0]
    return f"{angle} degrees, pulse {low + 256 * high} us" if is_set else "no pulse"


def stepper(rows: Rows) -> str:
    """How far a motor of 200 steps a turn has gone."""
    half = int.from_bytes(rows.get(0, [BLANK])[0][:3], "little", signed=True)
    return f"{half / 2:g} steps, {half * 0.9:.1f} degrees"


def tm1637(rows: Rows) -> str:
    """The four digits and the colon."""
    row = rows.get(0, [BLANK] * 4)
    if not row[0][1]:
        return "off"
    text = [DIGITS.get(pixel[0] & 127, "?") for pixel in row]
    return "|" + "".join(text[:2]) + (":" if row[1][0] & 128 else " ") + "".join(text[2:]) + "|"


def text_display(rows: Rows) -> str:
    """The lines of a text display; an own character is `?`."""

    def letter(code: int) -> str:
        return chr(code) if 32 <= code < 127 else "°" if code == 0xDF else "?"

    return "\n".join("|" + "".join(letter(pixel[0]) for pixel in rows[y]) + "|" for y in sorted(rows) if y < 4)


SAYS: dict[str, Callable[[Rows], str]] = {
    "wokwi-servo": servo,
    "wokwi-stepper-motor": stepper,
    "wokwi-biaxial-stepper": stepper,
    "wokwi-tm1637-7segment": tm1637,
    "wokwi-lcd2004": text_display,
}


def kinds_of(folder: str) -> dict[str, str]:
    """{id: the type that it had in the editor's diagram} of the parts of a made project that a chip stands for."""
    with open(os.path.join(folder, "diagram.json"), encoding="utf-8") as file:
        return {part["id"]: part["as"] for part in json.load(file)["parts"] if "as" in part}


def rows_of(report: list[str]) -> dict[str, Rows]:
    """{id: the rows of its display} of the chips of a report."""
    rows: dict[str, Rows] = {}
    for line in report:
        words = line.split(" ")
        if words[0] == "chip":
            found = rows.setdefault(words[1], {})
            if words[2] == "row":
                data = bytes.fromhex(words[4])
                found[int(words[3])] = [data[at : at + 4] for at in range(0, len(data), 4)]
    return rows


def pixel(report: list[str], diagram: dict, part: str, place: int) -> str | None:
    """The colour of a pixel of a part, `#RRGGBB`, by its place on the wire, from 0; of a matrix row by row. None where the report has
    no such part, or the part no such pixel.

    A part of a chain is a share of the pixels of the chain's first part."""
    parts = [*diagram["parts"], *diagram.get("drawn", {}).get("parts", [])]
    found = next((it for it in parts if it["id"] == part and "as" in it), None)
    share = found.get("slice", {"of": part, "from": 0, "count": None}) if found else {}
    head = next((it for it in diagram["parts"] if it["id"] == share.get("of")), None)
    size = re.fullmatch(r".*-(\d+)x(\d+)-*", head["type"]) if head else None
    rows = rows_of(report).get(share.get("of", ""))
    if rows is None or not size:
        return None
    wide, high = int(size[1]), int(size[2])
    if not 0 <= place < (share["count"] or wide * high):
        return None
    at = share["from"] + place
    row = rows.get(at // wide, [BLANK] * wide)
    return f"#{row[at % wide][:3].hex().upper()}"


def said(report: list[str], kinds: dict[str, str]) -> dict[str, str]:
    """{id: words} of the parts that have words, from the lines of a report; the others are pictures."""
    return {name: SAYS[kinds[name]](rows) for name, rows in rows_of(report).items() if kinds.get(name) in SAYS}
