"""In which function of its module a trap ended a chip: the run is made again up to the trap with a copy of the module that marks
where it is (sdk/marked.py). Where the copy does not end in the same way, nothing is said."""
import json
import os
import re
import shutil
import subprocess
import sys
import tempfile
import tomllib
from typing import Optional

HERE = os.path.dirname(os.path.abspath(__file__))
sys.path.insert(0, os.path.join(HERE, "..", "..", "sdk"))
import marked

BUDGET, MOST_BUDGET = (
    9,
    10_000_000,
)  # the trap of a call that ran out of fuel; marks cost some, so the others get the most
TRAP = re.compile(r"^chip (\S+) trap ([0-9]+) at ([0-9]+)$", re.M)


def modules(project: str) -> dict:
    """By the id of each chip's part, the path of its module."""
    with open(os.path.join(project, "wokwi.toml"), "rb") as file:
        paths = {f"chip-{chip['name']}": chip["binary"] for chip in tomllib.load(file).get("chip", [])}
    with open(os.path.join(project, "diagram.json"), encoding="utf-8-sig") as file:
        parts = json.load(file)["parts"]
    return {part["id"]: paths[part["type"]] for part in parts if part["type"] in paths}


def copy_of(project: str, module: str, folder: str) -> bytes:
    """Copies a project with one module marked, and returns that module as it was."""
    shutil.copytree(project, folder, ignore=shutil.ignore_patterns("expected", ".git"))
    path = os.path.join(folder, module)
    with open(path, "rb") as file:
        data = file.read()
    pins = path[: -len(".wasm")] + ".json"
    with open(pins, encoding="utf-8-sig") as file:
        value = json.load(file)
    if "display" in value:
        raise ValueError("it has a display of its own")
    value["display"] = {"width": 1, "height": 1}
    for name, content in ((path, marked.marked(data)), (pins, json.dumps(value).encode())):
        os.unlink(name)
        with open(name, "wb") as file:
            file.write(content)
    return data


def function_of(
    program: str, project: str, part: str, trap: str, cycle: str, script: Optional[str], budget: Optional[int]
) -> Optional[str]:
    """The name of the function in which the trap of a part came, or None."""
    with tempfile.TemporaryDirectory() as work:
        folder = os.path.join(work, "project")
        try:
            data = copy_of(project, modules(project)[part], folder)
        except (OSError, ValueError, KeyError, shutil.Error):
            return None
        fuel = budget if int(trap) == BUDGET else MOST_BUDGET
        words = [
            program,
            "run",
            folder,
            "--us",
            str(min(10_000_000, int(cycle) // 16 + 2)),
            "--report",
            os.path.join(work, "report"),
        ]
        words += ["--script", script] if script else []
        words += ["--budget", str(fuel)] if fuel else []
        ran = subprocess.run(
            words, stdin=subprocess.DEVNULL, stdout=subprocess.DEVNULL, stderr=subprocess.DEVNULL, check=False
        )
        if ran.returncode:
            return None
        with open(os.path.join(work, "report"), encoding="utf-8") as file:
            report = file.read()
    found = re.search(rf"^chip {re.escape(part)} row 0 ([0-9A-F]{{8}})$", report, re.M)
    if not found or (part, trap, cycle) not in TRAP.findall(report):
        return None
    return marked.name_of(data, int.from_bytes(bytes.fromhex(found[1]), "little") - 1)


def sentences(
    program: str, project: str, report: str, script: Optional[str] = None, budget: Optional[int] = None
) -> list:
    """A sentence for each chip of a run that a trap ended and whose function is found."""
    said = []
    for part, trap, cycle in TRAP.findall(report):
        name = function_of(program, project, part, trap, cycle, script, budget)
        if name:
            said.append(f"{part}: trap {trap} came in its function {name} ({os.path.basename(modules(project)[part])})")
    return said
