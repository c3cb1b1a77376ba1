"""A headless Chromium by its devtools protocol, with Python's own library alone: enough to test a page."""
import base64
import json
import os
import shutil
import socket
import struct
import subprocess
import sys
import tempfile
import time
import urllib.request

from engine import browser

SECONDS = 60
KEYS = {" ": 32, "ArrowLeft": 37, "ArrowUp": 38, "ArrowRight": 39, "ArrowDown": 40, "Home": 36, "End": 35, "Enter": 13, "Escape": 27}


class Browser:
    """One page. `faults` has what it wrote on its console or threw, `requests` what it asked for."""

    def __init__(self, width=1280, height=800, dark=False, touch=False):
        if not browser():
            raise FileNotFoundError("no chromium")
        self.box = tempfile.mkdtemp()
        self.process = subprocess.Popen([browser(), "--headless=new", "--no-sandbox", "--disable-gpu", "--remote-debugging-port=0", "--hide-scrollbars",
                                         f"--user-data-dir={self.box}", f"--window-size={width},{height}", "about:blank"],
                                        stdout=subprocess.DEVNULL, stderr=subprocess.DEVNULL)
        self.count, self.faults, self.requests, self.rest = 0, [], [], b""
        self.connect(self.port())
        for area in ("Page", "Runtime", "Log", "Network"):
            self.call(area + ".enable")
        self.size(width, height, touch)
        self.dark(dark)

    def port(self):
        name = os.path.join(self.box, "DevToolsActivePort")
        for _ in range(SECONDS * 20):
            if os.path.exists(name):
                with open(name, encoding="ascii") as file:
                    text = file.read()
                if text.count("\n"):
                    return int(text.split()[0])
            time.sleep(0.05)
        raise TimeoutError("the browser opens no port")

    def connect(self, port):
        with urllib.request.urlopen(f"http://127.0.0.1:{port}/json", timeout=SECONDS) as answer:
            page = next(target for target in json.load(answer) if target["type"] == "page")
        self.socket = socket.create_connection(("127.0.0.1", port), SECONDS)
        path = page["webSocketDebuggerUrl"].split(str(port), 1)[1]
        self.socket.sendall((f"GET {path} HTTP/1.1\r\nHost: 127.0.0.1:{port}\r\nUpgrade: websocket\r\nConnection: Upgrade\r\n"
                             "Sec-WebSocket-Key: bG9vaw==\r\nSec-WebSocket-Version: 13\r\n\r\n").encode())
        while b"\r\n\r\n" not in self.rest:
            self.rest += self.socket.recv(4096)
        self.rest = self.rest.split(b"\r\n\r\n", 1)[1]

    def size(self, width, height, touch=False):
        self.call("Emulation.setDeviceMetricsOverride", width=width, height=height, deviceScaleFactor=2 if touch else 1, mobile=touch)
        self.call("Emulation.setTouchEmulationEnabled", enabled=touch)

    def dark(self, on):
        self.call("Emulation.setEmulatedMedia", features=[{"name": "prefers-color-scheme", "value": "dark" if on else "light"}])

    def take(self, count):
        while len(self.rest) < count:
            more = self.socket.recv(1 << 20)
            if not more:
                raise ConnectionError("the browser ended")
            self.rest += more
        out, self.rest = self.rest[:count], self.rest[count:]
        return out

    def message(self):
        data = b""
        while True:
            first, size = self.take(2)
            if size == 126:
                size = struct.unpack(">H", self.take(2))[0]
            elif size == 127:
                size = struct.unpack(">Q", self.take(8))[0]
            data += self.take(size)
            if first & 128:
                return json.loads(data)

    def call(self, method, **values):
        self.count += 1
        text = json.dumps({"id": self.count, "method": method, "params": values}).encode()
        if len(text) < 126:
            head = bytes((129, 128 | len(text)))
        elif len(text) < 1 << 16:
            head = bytes((129, 128 | 126)) + struct.pack(">H", len(text))
        else:
            head = bytes((129, 128 | 127)) + struct.pack(">Q", len(text))
        self.socket.sendall(head + b"\0\0\0\0" + text)
        while True:
            message = self.message()
            if message.get("method") in ("Runtime.exceptionThrown", "Log.entryAdded", "Runtime.consoleAPICalled"):
                self.faults.append(json.dumps(message["params"])[:400])
            if message.get("method") == "Network.requestWillBeSent":
                self.requests.append(message["params"]["request"]["url"][:80])
            if message.get("id") == self.count:
                if "error" in message:
                    raise RuntimeError(message["error"])
                return message["result"]

    def js(self, text):
        answer = self.call("Runtime.evaluate", expression=text, awaitPromise=True, returnByValue=True)
        if "exceptionDetails" in answer:
            raise RuntimeError(json.dumps(answer["exceptionDetails"])[:600])
        return answer["result"].get("value")

    def open(self, file, address=""):
        """Opens a page and waits until it says that it is ready; returns the seconds that took."""
        self.call("Page.navigate", url="about:blank")
        begun = time.time()
        self.call("Page.navigate", url="file://" + os.path.abspath(file) + address)
        while not self.js("document.documentElement && document.documentElement.dataset.ready"):
            if time.time() - begun > SECONDS:
                raise TimeoutError(f"{file} does not get ready: {self.faults}")
            time.sleep(0.02)
        self.js("opened.then(look => { window.it = look; })")
        return time.time() - begun

    def key(self, key, shift=False):
        code = KEYS.get(key) or ord(key.upper())
        text = {} if len(key) > 1 else {"text": key}
        self.call("Input.dispatchKeyEvent", type="keyDown", key=key, windowsVirtualKeyCode=code, modifiers=8 if shift else 0, **text)
        self.call("Input.dispatchKeyEvent", type="keyUp", key=key, windowsVirtualKeyCode=code, modifiers=8 if shift else 0)

    def mouse(self, kind, x, y, **more):
        self.call("Input.dispatchMouseEvent", type=kind, x=x, y=y, **more)

    def click(self, x, y, shift=False):
        for kind in ("mousePressed", "mouseReleased"):
            self.mouse(kind, x, y, button="left", clickCount=1, modifiers=8 if shift else 0)

    def drag(self, x, y, to_x, to_y):
        self.mouse("mousePressed", x, y, button="left", clickCount=1)
        for k in range(1, 6):
            self.mouse("mouseMoved", x + (to_x - x) * k / 5, y + (to_y - y) * k / 5, button="left", buttons=1)
        self.mouse("mouseReleased", to_x, to_y, button="left", clickCount=1)

    def picture(self, file):
        with open(file, "wb") as out:
            out.write(base64.b64decode(self.call("Page.captureScreenshot", format="png")["data"]))

    def print(self, file):
        with open(file, "wb") as out:
            out.write(base64.b64decode(self.call("Page.printToPDF", preferCSSPageSize=True, printBackground=True)["data"]))

    def close(self):
        try:
            self.call("Browser.close")
        except (OSError, RuntimeError, ValueError):
            pass
        try:
            self.process.wait(10)
        except subprocess.TimeoutExpired:
            self.process.kill()
        shutil.rmtree(self.box, ignore_errors=True)


def picture_of(file, address, out):
    page = Browser(1280, 860)
    try:
        page.open(file, address)
        page.picture(out)
    finally:
        page.close()


if __name__ == "__main__":
    try:
        picture_of(*sys.argv[1:4])
    except FileNotFoundError as missing:
        print(f"look: {missing}: no picture of a page", file=sys.stderr)
        sys.exit(1)
