#!/usr/bin/env python3
"""Puts the simulator's module, the page's code and the examples together into one HTML file, which needs nothing else.

    assemble.py [-o FILE] [--modules FOLDER]
    assemble.py --node [-o FILE] [--modules FOLDER]     the program for Node in one file in its place

The modules, mudflatjar.wasm and mudflatjar32.wasm, are those of target/web (build.sh makes them), or of FOLDER. For the page one
is enough; Node takes the second. The same files make the same bytes. The page's policy allows this script, this style and workers
of its own, and no request.
"""
import argparse
import base64
import json
import os
import re
import sys
import zlib

HERE = os.path.dirname(os.path.abspath(__file__))
ROOT = os.path.join(HERE, "..", "..")
sys.dont_write_bytecode = True
sys.path.insert(0, os.path.join(ROOT, "tools", "look"))
import page as look
import project

# In this order, since each uses those before it.
SCRIPTS = ["places.js", "script.js", "archive.js", "json.js", "formulas.js", "lower.js", "moves.js", "firmware.js", "project.js", "prepare.js", "machine.js", "hand.js", "editor.js", "saving.js", "app.js", "start.js"]
MODULES = {"WIDE": "mudflatjar.wasm", "NARROW": "mudflatjar32.wasm"}
MOST = 3_000_000            # bytes of what is made
RULE = re.compile(r"^\| (\d\d) \| (\w+) \| (.+?) \| (.+?) \|$", re.M)
COMMAND = re.compile(r"run examples/(\S+) --us (\d+)")


class Fault(Exception):
    """Why there is no page."""


def read(*path):
    with open(os.path.join(*path), encoding="utf-8") as file:
        return file.read()


def packed(data):
    return base64.b64encode(zlib.compress(data, 9)).decode()


def plain(markdown):
    """Text of a table's cell without its marks."""
    return markdown.replace("\\|", "|").replace("`", "")


def refusals():
    """What docs/REFUSALS.md says of each number, and docs/CHIPS.md of those of modules."""
    rules = {}
    for name, least in (("REFUSALS.md", 10), ("CHIPS.md", 60)):     # smaller numbers are traps there
        for number, title, when, remedy in RULE.findall(read(ROOT, "docs", name)):
            if int(number) >= least and number not in rules:
                rules[number] = {"name": title, "when": plain(when), "remedy": plain(remedy)}
    return rules


def example(name):
    """The files of an example without what is expected of it, and the run time of its README; None of a folder that is no project."""
    folder = os.path.join(ROOT, "examples", name)
    if not os.path.isfile(os.path.join(folder, "wokwi.toml")):
        return None
    files = []
    for at, below, found in os.walk(folder):
        below[:] = sorted(it for it in below if it != "expected" and not it.startswith("."))
        for it in sorted(found):
            path = os.path.join(at, it)
            with open(path, "rb") as file:
                files.append([os.path.relpath(path, folder), base64.b64encode(file.read()).decode()])
    times = [int(us) for folder_name, us in COMMAND.findall(read(folder, "README.md")) if folder_name == name]
    return {"name": name, "us": times[0] if times else 1000, "files": sorted(files)}


def examples():
    names = sorted(os.listdir(os.path.join(ROOT, "examples")))
    return [it for it in map(example, names) if it]


def types():
    """What Wokwi's parts become here."""
    return json.loads(read(ROOT, "tools", "wokwi", "types.json"))


def chips():
    """The chips that such parts become: modules and pin files by their names."""
    found = {}
    for rule in types()["lowered"].values():
        for name in (rule["chip"] + ending for ending in (".wasm", ".json") if "chip" in rule):
            with open(os.path.join(ROOT, "tools", "wokwi", "chips", name), "rb") as file:
                found[name] = base64.b64encode(file.read()).decode()
    return found


def script_of():
    """The look's code as it is, and the page's within a function, so that no name of the one is one of the other."""
    own = "".join(read(HERE, "page", name).replace("'use strict';\n", "", 1) for name in SCRIPTS)
    return look.script_of(look.SCRIPTS) + "(() => {\n" + own + "})();\n"


def template():
    """The page of one run, with the places that a run fills."""
    style, script = "\n" + look.style_of(["page.css", *look.STYLES]), "\n" + look.script_of([*look.SCRIPTS, "page.js"])
    values = {"POLICY": look.policy_of(script, style, "@@PLAYS@@"), "STYLE": style[1:], "SCRIPT": script[1:]}
    return re.sub("@@([A-Z]+)@@", lambda match: values.get(match[1], match[0]), look.text_of("page.html"))


def calls():
    return re.sub(r"^export ", "", read(HERE, "call.mjs"), flags=re.M)


def worker():
    text = "'use strict';\n" + calls() + read(HERE, "page", "worker.js").replace("'use strict';\n", "", 1)
    if "</script" in text:
        raise Fault("the worker's code ends its own element")
    return text


def page_of(modules):
    found = {place: os.path.join(modules, name) for place, name in MODULES.items() if os.path.isfile(os.path.join(modules, name))}
    if not found:
        raise Fault(f"no module in {modules}: tools/web/build.sh makes it")
    style, script = "\n" + read(HERE, "page", "app.css") + look.style_of(look.STYLES), "\n" + script_of()
    policy = (f"default-src 'none'; script-src {look.digest(script)} 'wasm-unsafe-eval'; worker-src blob:; style-src {look.digest(style)}; "
              "base-uri 'none'; form-action 'none'")
    data = {"examples": examples(), "refusals": refusals(), "types": types(), "chips": chips(),
            "viewers": {kind: project.viewer_of(kind) for kind in project.VIEWERS}}
    values = {"POLICY": policy, "STYLE": style[1:], "SCRIPT": script[1:], "WORKER": worker(), "TEMPLATE": packed(template().encode()),
              "DATA": packed(json.dumps(data, separators=(",", ":"), sort_keys=True).encode()), "WIDE": "", "NARROW": ""}
    for place, name in found.items():
        with open(name, "rb") as file:
            values[place] = packed(file.read())
    return re.sub("@@([A-Z]+)@@", lambda match: values[match[1]], read(HERE, "page", "app.html"))


def replaced(text, old, new):
    if text.count(old) != 1:
        raise Fault(f"{old} is in mudflatjar.mjs {text.count(old)} times")
    return text.replace(old, new)


def program_of(modules):
    """mudflatjar.mjs with what it imports, and with the module that each Node takes."""
    with open(os.path.join(modules, MODULES["NARROW"]), "rb") as file:
        module = packed(file.read())
    found = re.search(r"^import (\{ .* \}) from './call.mjs';$", read(HERE, "mudflatjar.mjs"), re.M)
    text = replaced(read(HERE, "mudflatjar.mjs"), found[0], f"const {found[1]} = (() => {{\n{calls()}return {found[1]};\n}})();")
    return replaced(text, "const CARRIED = '';", f"const CARRIED = '{module}';")


def main():
    words = argparse.ArgumentParser(description=__doc__.split("\n")[0])
    words.add_argument("--node", action="store_true", help="the program for Node in place of the page")
    words.add_argument("-o", metavar="FILE", help="target/web/mudflatjar.html or target/web/mudflatjar.mjs if it is not named")
    words.add_argument("--modules", default=os.path.join(ROOT, "target", "web"), metavar="FOLDER")
    given = words.parse_args()
    to = given.o or os.path.join(ROOT, "target", "web", "mudflatjar.mjs" if given.node else "mudflatjar.html")
    try:
        text = (program_of if given.node else page_of)(given.modules)
        if len(text.encode()) > MOST:
            raise Fault(f"{to} would have {len(text.encode()):,} bytes, more than {MOST:,}")
        with open(to, "w", encoding="utf-8") as file:
            file.write(text)
        if given.node:
            os.chmod(to, 0o755)
    except (OSError, Fault) as why:
        print(f"assemble: {why}", file=sys.stderr)
        return 1
    print(f"{to}: {len(text.encode()):,} bytes")
    return 0


if __name__ == "__main__":
    sys.exit(main())
