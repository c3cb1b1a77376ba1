#!/usr/bin/env python3
"""Two tables of docs/PARTS.md from types.json: what happens to each type of Wokwi's editor, and which controls parts have.

parts_table.py           looks whether the page has the tables that --write would write, and ends with 1 where it has not
parts_table.py --write   writes them
"""

import argparse
import pathlib
import sys

import diagram as diagrams
import moves

PAGE = pathlib.Path(__file__).resolve().parents[2] / "docs" / "PARTS.md"
BEGIN = "<!-- tools/wokwi/parts_table.py --write makes this table of tools/wokwi/types.json -->\n"
END = "<!-- the end of the table -->\n"
CONTROLS_BEGIN = "<!-- tools/wokwi/parts_table.py --write makes this table of controls too -->\n"
CONTROLS_END = "<!-- the end of the table of controls -->\n"
CONTROLS_HEAD = "| type | control | values |\n|---|---|---|\n"
HEAD = "| type | what happens | pin names | not as in Wokwi |\n|---|---|---|---|\n"


def code(text: str) -> str:
    """A name in a table."""
    return f"`{text}`"


def pieces_of(rule: dict) -> tuple[list[dict], str]:
    """What a part becomes: its pieces in the case that has most, and which case is simulated as it is, in words."""
    if "cases" not in rule:
        return rule["as"], ""
    alone = [case for case, pieces in rule["cases"].items() if pieces is None]
    most = max((pieces for pieces in rule["cases"].values() if pieces), key=len)
    return most, f"simulated with {code(rule['by'])} {', '.join(alone)}; else " if alone else ""


def becomes(rule: dict) -> str:
    """What happens to a part that becomes others."""
    pieces, first = pieces_of(rule)
    pieces = [piece for piece in pieces if "hidden" not in piece]
    kinds = list(dict.fromkeys(piece["type"] for piece in pieces))
    endings = ", ".join(code(piece["id"]) for piece in pieces if piece["id"])
    if "chip" in rule:
        text = (
            f"a chip ({code(rule['chip'])})"
            if len(pieces) == 1
            else f"{len(pieces)} chips ({code(rule['chip'])}: {endings})"
        )
        if rule.get("chained"):
            text += ", one for a chain"
        if "page alone" in rule:
            text = f"the page alone plays its chip (`{rule['chip']}`)"
        elif rule.get("only shows"):
            text += "; shown by the page alone where the board is full"
        return first + text
    if len(pieces) == 1:
        return first + f"in its place {code(kinds[0])}"
    counts = " and ".join(f"{sum(piece['type'] == kind for piece in pieces)} {code(kind)}" for kind in kinds)
    return first + f"in its place {counts} ({endings})"


def rows() -> list[tuple[str, str, str, str]]:
    """Type, what happens, where its pin names are from, what is not as in Wokwi."""
    table = diagrams.table()
    found = []
    for kind in table["simulated"]:
        if kind not in table["lowered"]:
            found.append((code(kind), "simulated", "tested", "see below"))
    for kind in table["breadboards"]:
        found.append((code(kind), "wires", "its holes", ""))
    for kind, rule in table["lowered"].items():
        unlike = "; ".join(text for text in (rule.get("says", ""), rule.get("unlike", "")) if text)
        found.append((code(kind), becomes(rule), rule["pin names"], unlike))
    for kind, rule in table["left out"].items():
        found.append(
            (code(kind), "moved by a script" if "controls" in rule else "left out; its wires stay", "any", rule["why"])
        )
    reasons: dict[str, list[str]] = {}
    for kind, why in table["not there"].items():
        reasons.setdefault(why, []).append(kind)
    for why, kinds in reasons.items():
        found.append((", ".join(map(code, kinds)), "refused", "", why))
    return found


def values_of(rule: dict) -> str:
    """What a control can be set to."""
    if "words" in rule:
        return ", ".join(map(code, rule["words"]))
    ends = f"{moves.number_text(rule['min'])} to {moves.number_text(rule['max'])}"
    unit = f" {rule['unit']}" if rule["unit"] else ""
    return f"{ends}{unit}, by {moves.number_text(rule['step'])}; {rule['default']} at first"


def control_rows() -> list[tuple[str, str, str]]:
    """Type, control, its values; controls of one type that have the same values are one row."""
    table, found = diagrams.table(), []
    for kind, rule in {**table["lowered"], **table["left out"]}.items():
        same: dict[str, list[str]] = {}
        for name, control in rule.get("controls", {}).items():
            same.setdefault(values_of(control), []).append(name)
        found.extend((code(kind), ", ".join(map(code, names)), values) for values, names in same.items())
    return found


def block(begin: str, head: str, lines: list, end: str) -> str:
    """A table with its marks."""
    return begin + "\n" + head + "".join("| " + " | ".join(row) + " |\n" for row in lines) + "\n" + end


def made(text: str) -> str | None:
    """The page with both tables, or None where it has no place for one."""
    for begin, head, lines, end in (
        (BEGIN, HEAD, rows(), END),
        (CONTROLS_BEGIN, CONTROLS_HEAD, control_rows(), CONTROLS_END),
    ):
        before, found, rest = text.partition(begin)
        _, closed, after = rest.partition(end)
        if not found or not closed:
            return None
        text = before + block(begin, head, lines, end) + after
    return text


def main() -> int:
    """Compares or writes."""
    words = argparse.ArgumentParser(description=__doc__.split("\n", maxsplit=1)[0])
    words.add_argument("--write", action="store_true", help="write the tables into docs/PARTS.md")
    given = words.parse_args()
    text = PAGE.read_text(encoding="utf-8")
    new = made(text)
    if new is None:
        print("parts_table: docs/PARTS.md has no place for a table", file=sys.stderr)
        return 1
    if given.write:
        PAGE.write_text(new, encoding="utf-8")
        return 0
    if text != new:
        print(
            "parts_table: docs/PARTS.md has other tables than types.json: tools/wokwi/parts_table.py --write writes them",
            file=sys.stderr,
        )
        return 1
    return 0


if __name__ == "__main__":
    sys.exit(main())
