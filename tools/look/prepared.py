"""The project that a word of `look` names: a folder as it is, or what tools/wokwi makes of a folder or an archive of Wokwi's editor."""

import os
import sys
from typing import Callable

WOKWI = os.path.join(os.path.dirname(os.path.dirname(os.path.abspath(__file__))), "wokwi")
BEFORE = sys.path[:]
sys.path.insert(0, WOKWI)
import archive
import diagram as diagrams
import lower
import moves

sys.path[:] = BEFORE  # modules of that folder have names that others here have too


class NoProject(Exception):
    """Why nothing can be shown, a sentence each."""


def is_whole(folder: str) -> bool:
    """Whether the firmware that wokwi.toml names is there."""
    try:
        firmware, _ = lower.read_settings(folder)
    except lower.Fault:
        return True  # the program says what is wrong with wokwi.toml
    return bool(firmware) and os.path.isfile(os.path.join(folder, firmware))


def has_firmware(folder: str) -> bool:
    """Whether there is a sketch that can be built, or a file that can be the firmware."""
    return bool(lower.sketches.sketch_of(folder)[1]) or any(
        name.endswith((".hex", ".elf")) for name in os.listdir(folder)
    )


def needs_lowering(folder: str) -> bool:
    """Whether the diagram has parts or attributes in a form that the simulator lacks."""
    try:
        return diagrams.needs_lowering(lower.read_diagram(folder))
    except lower.Fault:
        return False  # the program says what is wrong with it


def script_of(path: str, box: str) -> str | None:
    """The script in an archive that was unpacked below `box`; of a folder, whose script can be named, none is taken."""
    unpacked = os.path.join(box, "unpacked")
    found = [os.path.join(unpacked, name, "script.txt") for name in os.listdir(unpacked)] if archive.is_archive(path) else []
    return next((script for script in found if os.path.isfile(script)), None)


def project_of(path: str, box: str, say: Callable[[str], None]) -> str:
    """The folder of a project that the program takes; what is made is below the folder `box`, and what was changed is said.

    Raises NoProject where an archive cannot be read, or nothing can be made of a folder."""
    folder = path
    if archive.is_archive(path):
        try:
            folder = archive.unpack(path, os.path.join(box, "unpacked"))
        except archive.ArchiveFault as fault:
            raise NoProject(f"{path}: {fault}") from None
        except OSError as fault:
            raise NoProject(f"{path}: {fault.strerror}") from None
    if not os.path.isfile(os.path.join(folder, "diagram.json")):
        if folder != path:
            raise NoProject(f"{path}: it has no diagram.json")
        return folder
    whole = is_whole(folder)
    if (whole and not needs_lowering(folder)) or not (whole or has_firmware(folder)):
        return folder
    made, said = os.path.join(box, "made", os.path.basename(os.path.abspath(folder))), []
    faults = lower.lower(folder, made, anyway=not whole, say=said.append)
    if faults and whole:
        return folder  # the program refuses it, with the number and the place
    if faults:
        raise NoProject(*faults)
    for text in said:
        say(text)
    return made
