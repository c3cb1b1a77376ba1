"""The verdict on a run: what did not happen as the firmware, a chip or the wiring meant it, though the run went through to its
end; which of it fails a test, and by which words a test says that it means it.

Each thing is a Finding. Those of the report (a core that halted, a chip that a trap ended, what firmware wrote to that is not
there, a console that was cut) and of the project (attributes and pins that a chip does not get) fail a test. Those that change
nothing unless more is done, and those of the wiring (wiring.py), are told, and fail with `strict` alone."""
import os
import re
import sys
from typing import Iterable, NamedTuple, Optional

HERE = os.path.dirname(os.path.abspath(__file__))
sys.path[:0] = [path for path in (os.path.join(HERE, "script"), os.path.join(HERE, "wokwi")) if path not in sys.path]
import attributes
import pages
import tell
import wiring

# The words by which a test allows a whole kind of findings.
KINDS = {
    "halt": "a core that halted",
    "trap": "a chip that a trap ended",
    "left-out": "what firmware wrote to that is not there",
    "attribute": "an attribute that a chip does not read, or not as it was given",
    "pin": "a pin that a chip asks for and does not have",
    "console": "a chip's console that was cut",
    "wiring": "wiring that cannot be meant",
}
# Registers of which a write may change nothing that a test sees: a line `ignored` has the address alone, and not what was written.
MAY_BE_HARMLESS = {0x50: "ACSR", 0x55: "MCUCR", 0x64: "PRR", 0x7E: "DIDR0", 0x7F: "DIDR1", 0x82: "TCCR1C"}


class Finding(NamedTuple):
    """One thing that was not as it was meant."""

    names: tuple  # the words that allow it; the first is its kind
    text: str = ""  # the sentence; "" where the line has it (`texts`)
    line: str = ""  # its line of the report
    fails: bool = True  # whether a test fails by it, or it is told alone


class Verdict(NamedTuple):
    """What fails a test, and what is told alone: sentences without an end of line."""

    fails: list
    told: list


def of_line(line: str) -> Optional[Finding]:
    """What a line of a report says of this kind, or None."""
    facts = line.split(" ")
    if facts[0] == "uno" and facts[2:3] == ["pc"] and facts[4:5] == ["halt"]:
        return Finding(("halt", facts[5], facts[1]), line=line)
    if facts[0] == "uno" and facts[2:3] == ["ignored"]:
        address = int(facts[3], 16)
        name = pages.registers().get(address, (facts[3],))[0]
        return Finding(("left-out", facts[3], name), line=line, fails=address not in MAY_BE_HARMLESS)
    row = tell.omitted(facts)
    if row:
        return Finding(("left-out", facts[3], row[0], facts[6]), line=line, fails=row[2])
    if facts[0] == "chip" and facts[2:3] == ["trap"]:
        return Finding(("trap", f"trap {facts[3]}", facts[1]), line=line)
    return None


def of_report(report: str) -> list:
    """The findings in a report's text."""
    found = [finding for finding in map(of_line, tell.decided(report)) if finding]
    return found + [Finding(("console", part), text) for part, text in tell.cut_consoles(report)]


def of_project(project: str) -> list:
    """The findings in a project's folder, which the program has accepted: what its chips do not get of the diagram."""
    return [
        Finding((kind, f"{part}.{name}", name, part), text) for kind, part, name, text in attributes.faults(project)
    ]


def hex_of(project: str) -> Optional[str]:
    """The firmware of a project, beside which an ELF file may have its lines."""
    return tell.words.firmware(["run", project])


def of_wiring(project: str, contradictions: dict, sketch: Optional[str] = None) -> list:
    """The findings of a project's wiring, by what its wave has of levels that are x (wiring.contradictions), and by the sketch in the
    folder that it was made of. They are told alone."""
    return [
        Finding(("wiring", reason, part), text, fails=False)
        for reason, part, text in wiring.faults(project, contradictions, sketch)
    ]


def findings(project: str, report: str, wave_file: Optional[str] = None, sketch: Optional[str] = None) -> list:
    """All findings of a run: of its report, of its project, and of its wiring, also by its wave where that is there."""
    found, contradictions = of_report(report) + of_project(project), {}
    if wave_file:
        with open(wave_file, "rb") as wave:
            contradictions = wiring.contradictions(wave, wiring.watched(project))
    return found + of_wiring(project, contradictions, sketch)


def texts(found: Iterable[Finding], hex_file: Optional[str] = None) -> list:
    """The sentences of findings; registers of one unit are one."""
    lines = "\n".join(it.line for it in found if it.line)
    told = [re.sub(r" \(docs/REPORT\.md[^)]*\)$", "", text) for text in tell.left_out(lines, hex_file)]
    return told + [it.text for it in found if it.text]


def is_expected(line: str, expected: set) -> bool:
    """Whether a report that a test expects has this line, also with another place of the firmware."""
    return bool(line) and (line in expected or re.sub(r"pc 0x\w+", "pc *", line) in expected)


def verdict(
    found: Iterable[Finding],
    allowed: Iterable[str] = (),
    expected: str = "",
    hex_file: Optional[str] = None,
    strict: bool = False,
) -> Verdict:
    """What fails a test and what is told: neither has what `allowed` names, or a line of the text `expected` has. With `strict`
    all of it fails."""
    names, lines = set(allowed), set(expected.splitlines())
    kept = [it for it in found if not names & set(it.names) and not is_expected(it.line, lines)]
    fails = texts([it for it in kept if it.fails or strict], hex_file)
    return Verdict(fails, texts([it for it in kept if not (it.fails or strict)], hex_file))


def unknown(allowed: Iterable[str], parts: Iterable[str] = ()) -> list:
    """The words among `allowed` that name nothing: no kind, register, address, trap, halting word, part, or PART.NAME."""
    registers = {name for name, _ in pages.registers().values()} | set(pages.omissions())
    forms = r"trap \d+|0x[0-9A-F]{2}|0x[0-9A-F]{4}"
    known = (
        lambda word: word in KINDS
        or word in registers
        or word in wiring.REASONS
        or re.fullmatch(forms, word)
        or word.split(".")[0] in parts
    )
    return [word for word in allowed if not known(word)]


def kinds_of(found: Iterable[Finding]) -> str:
    """The kinds of findings, as a text."""
    return ", ".join(dict.fromkeys(it.names[0] for it in found))


def how_to_allow(found: Iterable[Finding]) -> str:
    """How a scenario says that it means what fails it."""
    return f"(where the test means this: allow: [..] in the scenario, or --allow, with one of: {kinds_of(found)})"
