"""Puts the files of page/ and a run together into one HTML file, with a policy that allows this script and this style and nothing else."""
import base64
import hashlib
import html
import json
import os
import re

from packing import packed
from picture import waves_svg
from told import halts, omissions, registers, traps
from wave import moved_names

HERE = os.path.join(os.path.dirname(os.path.abspath(__file__)), "page")
# In this order, since each uses those before it. README.md says what is in which.
SCRIPTS = ["wave.js", "vcd.js", "bus.js", "notes.js", "run.js", "playing.js", "display.js", "text.js", "svg.js", "parts.js", "shown.js", "sensors.js", "route.js", "breadboard.js", "board.js",
           "rows.js", "plot.js", "waves.js", "frame.js", "sound.js", "controls.js", "look.js"]
PLAYER = "played.js"    # of the worker in which chips are played
STYLES = ["board.css", "look.css"]
STILL_ROWS = 24


def text_of(name):
    with open(os.path.join(HERE, name), encoding="utf-8") as file:
        return file.read()


def script_of(names):
    """Scripts one after another, as one, after the tables of the documents that they speak of and the worker's text."""
    tables = f"const REGISTERS = {json_text(registers())};\nconst HALTS = {json_text(halts())};\nconst OMISSIONS = {json_text(omissions())};\nconst TRAPS = {json_text(traps())};\nconst PLAYER = {json_text(text_of(PLAYER))};\n"
    return "'use strict';\n" + tables + "".join(text_of(name).replace("'use strict';\n", "", 1) for name in names)


def style_of(names):
    return "".join(text_of(name) for name in names)


def digest(text):
    return "'sha256-" + base64.b64encode(hashlib.sha256(text.encode()).digest()).decode() + "'"


# What the policy of a page allows that plays chips: their modules, in a worker of its own.
PLAYS = " 'wasm-unsafe-eval'; worker-src blob:"


def policy_of(script, style, plays=""):
    return (f"default-src 'none'; script-src {digest(script)}{plays}; style-src {digest(style)}; base-uri 'none'; form-action 'none'")


def json_text(value):
    """JSON that may stand in a <script>: no `<` in it."""
    return json.dumps(value, separators=(",", ":"), ensure_ascii=True).replace("<", "\\u003c")


def data_of(seen):
    """What page.js makes a run of; `seen` is what look.py found (see Seen)."""
    steps, last = None, 0
    if seen.times is not None:
        steps = []
        for time in seen.times:
            steps.append(None if time is None else time - last)
            last = last if time is None else time
    return {"title": seen.title, "cycles": seen.cycles, "from": seen.start, "to": seen.end, "diagram": seen.diagram, "chips": seen.chips, "modules": seen.modules,
            "script": seen.script, "names": seen.waves.names, "of": seen.waves.of, "counts": [len(wave) for wave in seen.waves.waves],
            "serial": base64.b64encode(seen.sent).decode(), "times": steps, "formats": seen.formats, "others": seen.others, "report": seen.report,
            "firsts": seen.firsts, "left": seen.left, "made": seen.made, "told": seen.told, "controls": seen.controls}


def still_of(seen):
    """What the page shows where no script runs: the waves, the bytes and the report."""
    rows = moved_names(seen.waves)[:STILL_ROWS]
    parts = [f"<h1>{html.escape(seen.title)}</h1>\n"]
    if seen.left:
        parts.append(f"<p><strong>{html.escape(seen.left)}</strong></p>\n")
    if seen.told:
        parts.append("<h2>What was not as it was meant</h2>\n<ul>" + "".join(f"<li>{html.escape(text)}</li>" for _, text in seen.told) + "</ul>\n")
    if seen.made:
        parts.append("<h2>How this project was made</h2>\n<ul>" + "".join(f"<li>{html.escape(line)}</li>" for line in seen.made) + "</ul>\n")
    if rows:
        parts.append(waves_svg(seen.waves, rows, seen.start, seen.end))
    if seen.sent:
        parts.append(f"<h2>Sent by the Uno</h2>\n<pre>{html.escape(seen.sent.decode('utf-8', 'replace'))}</pre>\n")
    parts.append(f"<h2>Report, at the end of the run</h2>\n<pre>{html.escape(seen.report)}</pre>\n")
    return "".join(parts)


def page_of(seen):
    style, script = "\n" + style_of(["page.css", *STYLES]), "\n" + script_of([*SCRIPTS, "page.js"])
    values = {"POLICY": policy_of(script, style, PLAYS if seen.modules else ""), "TITLE": html.escape(seen.title), "STYLE": style[1:], "SCRIPT": script[1:], "STILL": still_of(seen),
              "DATA": json_text(data_of(seen)), "WAVES": packed(seen.waves.waves)}
    return re.sub("@@([A-Z]+)@@", lambda match: values[match[1]], text_of("page.html"))
