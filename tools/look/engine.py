"""Runs scripts of page/ without a page: in node, or in a headless Chromium. For pictures of a board, and for tests."""
import atexit
import json
import os
import shutil
import subprocess
import tempfile
import threading

from urllib.parse import unquote

from packing import packed
from page import SCRIPTS, STYLES, data_of, json_text, script_of, style_of, text_of

HERE = os.path.dirname(os.path.abspath(__file__))
BROWSERS = ("chromium", "chromium-browser", "google-chrome", "chrome")
SECONDS = 240


class EngineMissing(Exception):
    pass


def node():
    return shutil.which(os.environ.get("NODE", "node"))


def browser():
    return next((path for path in map(shutil.which, (os.environ.get("CHROMIUM", BROWSERS[0]), *BROWSERS[1:])) if path), None)


def evaluated(call, data):
    """What the scripts of page/, and then the expression `call`, make of `data` (a value of JSON, named `given`): a value of JSON."""
    script = script_of([*SCRIPTS, "page.js"]).replace("\nconst opened = openPage();\nopened.catch", "\nconst opened = Promise.resolve();\nopened.catch")
    if node():
        return in_node(script, call, data)
    if browser():
        return in_browser(script, call, data)
    raise EngineMissing("this needs node or Chromium, and neither is installed")


# What node does with each line that it gets: the expression of the line, with its data as `given`, and a line with what comes of it.
SERVES = """
const lines = require('node:readline').createInterface({ input: process.stdin, crlfDelay: Infinity });
(async () => {
  for await (const line of lines) {
    const { call, data: given } = JSON.parse(line);
    let answer;
    try { answer = { value: await eval(`(async () => ${call})()`) }; } catch (error) { answer = { fault: String(error.stack || error) }; }
    process.stdout.write(JSON.stringify(answer) + '\\n');
  }
})();
"""


class Node:
    """A node that has the scripts, for all that this process asks of it."""

    one = None
    lock = threading.Lock()

    def __init__(self, script):
        self.box = tempfile.TemporaryDirectory()
        file = os.path.join(self.box.name, "look.js")
        with open(file, "w", encoding="utf-8") as out:
            out.write(f"{text_of('../document.js')}\n{script}{SERVES}")
        self.process = subprocess.Popen([node(), file], stdin=subprocess.PIPE, stdout=subprocess.PIPE)
        atexit.register(self.end)

    def ask(self, call, data):
        timer = threading.Timer(SECONDS, self.process.kill)
        timer.start()
        try:
            self.process.stdin.write((json.dumps({"call": call, "data": data}) + "\n").encode())
            self.process.stdin.flush()
            line = self.process.stdout.readline()
        finally:
            timer.cancel()
        if not line:
            raise RuntimeError("node gave no answer")
        return json.loads(line)

    def end(self):
        self.process.kill()
        self.process.communicate()
        self.box.cleanup()


def in_node(script, call, data):
    with Node.lock:
        if Node.one is None or Node.one.process.poll() is not None:
            Node.one = Node(script)
        answer = Node.one.ask(call, data)
    if "fault" in answer:
        raise RuntimeError(answer["fault"][-2000:])
    return answer.get("value")


def in_browser(script, call, data):
    text = ("<!DOCTYPE html><meta charset=utf-8><title>-</title><pre id=out></pre><script>" + script + f"\nconst given = {json_text(data)};\n"
            f"(async () => {call})().then(value => {{ document.getElementById('out').textContent = encodeURIComponent(JSON.stringify(value)); }});</script>")
    with tempfile.TemporaryDirectory() as box:
        file = os.path.join(box, "look.html")
        with open(file, "w", encoding="utf-8") as out:
            out.write(text)
        done = subprocess.run([browser(), "--headless=new", "--no-sandbox", "--disable-gpu", "--virtual-time-budget=60000", f"--user-data-dir={box}/profile",
                               "--dump-dom", "file://" + file], stdout=subprocess.PIPE, stderr=subprocess.DEVNULL, timeout=SECONDS, check=False)
    found = done.stdout.decode(errors="replace").split('<pre id="out">', 1)[-1].split("</pre>", 1)[0]
    if not found:
        raise RuntimeError("the browser gave no answer")
    return json.loads(unquote(found))


def board_svg(seen, cycle):
    """The board at a cycle, as an SVG picture."""
    given = {"data": data_of(seen), "packed": packed(seen.waves.waves), "css": style_of(STYLES), "t": cycle}
    return evaluated("{ const run = await runOfPage(given.data, given.packed), board = drawBoard(run); await playChips(run); board.update({ t: given.t, since: Math.max(run.from, given.t - EYE) });"
                     " return boardPicture(board, given.css); }", given) + "\n"
