#!/usr/bin/env python3
"""The program in a page: runs words through target/web/mudflatjar.html in a headless Chromium, for examples/check.sh and the like.

    in_page.py --with COMMAND ..    opens the page, and runs COMMAND with PROGRAM set to this file
    in_page.py WORDS                within such a COMMAND: what the program does for the words

The page's own worker does each run. What it writes goes to the files and outputs that the program would write to.
"""
import base64
import json
import os
import re
import socket
import subprocess
import sys
import tempfile
import threading

HERE = os.path.dirname(os.path.abspath(__file__))
ROOT = os.path.realpath(os.path.join(HERE, "..", "..", ".."))
PAGE = os.environ.get("MUDFLATJAR_PAGE", os.path.join(ROOT, "target", "web", "mudflatjar.html"))
SOCKET = "MUDFLATJAR_IN_PAGE"
LONGEST = 16777216 + 1
CALL = """(async ({ words, files }) => {
  const bytes = text => Uint8Array.from(atob(text), c => c.charCodeAt(0));
  const text = it => { let s = ''; for (let i = 0; i < it.length; i += 32768) s += String.fromCharCode(...it.subarray(i, i + 32768)); return btoa(s); };
  const { ended, ms } = await it.machine.run({ words, files: files.map(([name, content]) => [name, bytes(content)]) });
  return { ...ended, ms, ...Object.fromEntries(['serial', 'wave', 'report', 'complaint'].filter(port => ended[port]).map(port => [port, text(ended[port])])) };
})"""


def received(connection):
    data = b""
    while not data.endswith(b"\n"):
        more = connection.recv(1 << 20)
        if not more:
            break
        data += more
    return json.loads(data)


def ended(browser, words, folder):
    """What the page answers, with each file that it misses and that is there."""
    files = []
    while True:
        end = browser.js(f"{CALL}({json.dumps({'words': words, 'files': files})})")
        missed = re.fullmatch(r"(?s)(.*): missing\n", base64.b64decode(end.get("complaint", "")).decode()) if end["status"] == 4 else None
        if not missed or missed[1] in (name for name, _ in files):
            return end
        try:
            with open(os.path.join(folder, missed[1]), "rb") as file:
                files.append([missed[1], base64.b64encode(file.read(LONGEST)).decode()])
        except FileNotFoundError:
            return end
        except OSError:
            return {"status": 5, "complaint": base64.b64encode(f"{missed[1]}: read failed\n".encode()).decode()}


def served(browser, listener):
    while True:
        try:
            connection, _ = listener.accept()
        except OSError:
            return
        with connection:
            asked = received(connection)
            try:
                answer = ended(browser, asked["words"], asked["folder"])
            except (RuntimeError, OSError) as why:
                answer = {"status": 70, "complaint": base64.b64encode(f"in_page: {why}\n".encode()).decode()}
            connection.sendall(json.dumps(answer).encode() + b"\n")


def with_page(command):
    sys.dont_write_bytecode = True
    sys.path.insert(0, os.path.join(ROOT, "tools", "look"))
    from browser import Browser
    browser = Browser()
    try:
        browser.open(PAGE)
        with tempfile.TemporaryDirectory() as box, socket.socket(socket.AF_UNIX) as listener:
            listener.bind(os.path.join(box, "page"))
            listener.listen()
            threading.Thread(target=served, args=(browser, listener), daemon=True).start()
            environment = {**os.environ, SOCKET: os.path.join(box, "page"), "PROGRAM": os.path.abspath(__file__)}
            status = subprocess.run(command, env=environment, check=False).returncode
            listener.close()
    finally:
        browser.close()
    if browser.faults:
        print("in_page: the page wrote on its console:", *browser.faults, sep="\n", file=sys.stderr)
        return 1
    return status


def write_named(name, data):
    if name == "-":
        sys.stdout.buffer.write(data)
    elif name:
        with open(name, "wb") as file:
            file.write(data)


def program(words):
    with socket.socket(socket.AF_UNIX) as connection:
        connection.connect(os.environ[SOCKET])
        connection.sendall(json.dumps({"words": words, "folder": os.getcwd()}).encode() + b"\n")
        end = received(connection)
    port = lambda name: base64.b64decode(end.get(name, ""))
    try:
        sys.stdout.buffer.write(port("serial"))
        write_named(end.get("waveName", ""), port("wave"))
        write_named(end.get("reportName", ""), port("report"))
        sys.stdout.buffer.flush()
    except OSError:
        print("write failed", file=sys.stderr)
        return 6
    sys.stderr.write(port("complaint").decode())
    return end["status"]


if __name__ == "__main__":
    if sys.argv[1:2] == ["--with"]:
        sys.exit(with_page(sys.argv[2:]))
    sys.exit(program(sys.argv[1:]))
