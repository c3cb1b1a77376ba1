"""What the documents say of the lines that tell what a run left out: registers that are not there, words that halt a core, traps."""
import os
import re

DOCS = os.path.join(os.path.dirname(os.path.abspath(__file__)), "..", "..", "docs")


def rows_of(page, heading):
    """The rows of the first table after a heading of a page, without its head, as lists of cells; none if it is not there."""
    try:
        with open(os.path.join(DOCS, page), encoding="utf-8") as file:
            text = file.read().split(f"\n## {heading}\n", 1)
    except OSError:
        return []
    rows = []
    for line in text[1].split("\n## ", 1)[0].split("\n") if len(text) == 2 else []:
        if line.startswith("|"):
            rows.append([cell.strip() for cell in line.strip("|").split("|")])
        elif rows:
            break
    return rows[2:]


def plain(text):
    return text.replace("`", "")


def registers():
    """{'0x61': [unit, name]}"""
    return {address: [plain(unit), name] for unit, cell, *_ in rows_of("REPORT.md", "Registers that are not there")
            for address, name in re.findall(r"`(0x[0-9A-F]{2})` (\w+)", cell)}


def omissions():
    """{'PinClock': {'0x45': what is said}}"""
    found = {}
    for name, cell, said, *_ in rows_of("REPORT.md", "What firmware asked for that is left out"):
        for address in re.findall(r"`(0x[0-9A-F]{2})`", cell):
            found.setdefault(name, {})[address] = plain(said)
    return found


def halts():
    """{'0x95E8': what it is}"""
    return {plain(word): plain(what) for word, what, *_ in rows_of("REPORT.md", "A core that has halted")}


def traps():
    """{'1': [name, what happened]}"""
    return {number: [name, plain(what)] for number, name, what, *_ in rows_of("CHIPS.md", "What ends a chip")}
