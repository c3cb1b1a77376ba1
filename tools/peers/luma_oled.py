"""luma_oled.py: pictures that luma.oled, a library in use, draws on an OLED (Debian's package python3-luma.oled). Its driver of the SSD1306
writes on a bus that keeps what it is told; firmware sends the same writes by the Uno's TWI, and what the report of PROGRAM shows has to
be the picture. `--commands` prints what the driver sends. Ends with 1 where a picture is another.
"""
import json
import os
import subprocess
import sys
import tempfile

from luma.core.interface.serial import i2c
from luma.oled.device import ssd1306
from PIL import Image, ImageDraw

HERE = os.path.dirname(os.path.abspath(__file__))
sys.path.insert(0, HERE)
sys.path.insert(1, os.path.join(HERE, ".."))
import boards  # noqa: E402
import display  # noqa: E402

PROGRAM = os.environ.get("PROGRAM") or os.path.join(HERE, "../../target/mudflatjar")
SIZE = (128, 64)


class Kept:
    """A bus as the library's interface wants one."""

    def __init__(self):
        self.writes = []

    def write_i2c_block_data(self, address, first, rest):
        self.writes.append([2 * address, first, *rest])


def player(writes):
    """Firmware that makes these writes, each from START to STOP, and then stands still."""
    code = boards.Code()
    code.bit(boards.PORTS["C"] + 2, 4, 1)
    code.bit(boards.PORTS["C"] + 2, 5, 1)
    code.set(boards.TWBR, 0)
    body = [
        0x9105,                         # next: LPM r16, Z+, how many bytes
        0x3000, 0xF0D9,                 # CPI r16, 0; BREQ end
        0xEA14, 0x9310, boards.TWCR,    # START
        0x9120, boards.TWCR, 0xFF27, 0xCFFC,
        0x9115, 0x9310, boards.TWDR,    # byte: LPM r17, Z+
        0xE814, 0x9310, boards.TWCR,
        0x9120, boards.TWCR, 0xFF27, 0xCFFC,
        0x950A, 0xF7A1,                 # DEC r16; BRNE byte
        0xE914, 0x9310, boards.TWCR,    # STOP
        0x9120, boards.TWCR, 0xFD24, 0xCFFC,
        0xCFE2,                         # RJMP next
        0xCFFF,                         # end: RJMP end
    ]
    table = b"".join(bytes([len(write), *write]) for write in writes) + b"\0"
    at = 2 * (len(code.words) + 2 + len(body))
    code.load(30, at & 0xFF)
    code.load(31, at >> 8)
    code.put(0, *body)
    table += b"\0" * (len(table) % 2)
    code.put(0, *[int.from_bytes(table[k:k + 2], "little") for k in range(0, len(table), 2)])
    assert len(code.words) <= boards.FLASH_WORDS
    return code.hex()


def shown(writes, address, name="oled1"):
    """Whether an OLED at this address is on after these writes, and the rows of its dots."""
    parts = [{"type": "wokwi-arduino-uno", "id": "uno"}, {"type": "board-ssd1306", "id": name, "attrs": {"i2cAddress": hex(address)}}]
    wires = [["uno:A4", name + ":SDA", "", []], ["uno:A5", name + ":SCL", "", []]]
    with tempfile.TemporaryDirectory() as folder:
        for file, text in {"wokwi.toml": "[wokwi]\nversion = 1\nfirmware = 'f.hex'\n", "f.hex": player(writes),
                           "diagram.json": json.dumps({"version": 1, "parts": parts, "connections": wires})}.items():
            with open(os.path.join(folder, file), "w", encoding="ascii") as out:
                out.write(text)
        us = sum(map(len, writes)) * 13 + len(writes) * 10 + 100
        lines = subprocess.run([PROGRAM, "run", folder, "--us", str(us), "--report", "-"], stdout=subprocess.PIPE, check=True, text=True).stdout.split("\n")
    return f"oled {name} on" in lines, display.oled_dots(lines, name)


def drawn(what):
    """A picture: text, a frame, rings, and lines in all directions."""
    image = Image.new("1", SIZE)
    draw = ImageDraw.Draw(image)
    draw.rectangle((0, 0, 127, 63), outline=1)
    draw.text((6, 4), what, fill=1)
    for radius in (4, 9, 14):
        draw.ellipse((64 - radius, 40 - radius, 64 + radius, 40 + radius), outline=1)
    for x in range(0, 128, 16):
        draw.line((x, 20, 127 - x, 62), fill=1)
    return image


def rows_of(image):
    return [[bool(image.getpixel((x, y))) for x in range(SIZE[0])] for y in range(SIZE[1])]


def commands(writes):
    """The commands of each write, and how many bytes of data follow."""
    lines, data = [], 0
    for _, control, *rest in writes:
        if control == 0x40:
            data += len(rest)
            continue
        if data:
            lines.append(f"{data} bytes of data")
        data = 0
        lines.append(" ".join(f"{byte:02X}" for byte in rest))
    return lines + ([f"{data} bytes of data"] if data else [])


def steps(bus, address):
    """What the driver shows, one after another, when the bus has what it wrote for it: whether it is on, and the picture."""
    blank = Image.new("1", SIZE)
    device = ssd1306(i2c(bus=bus, address=address))
    yield "at the start", True, blank
    picture, other = drawn("luma.oled"), drawn("a second one")
    device.display(picture)
    yield "a picture", True, picture
    device.contrast(16)
    device.hide()
    yield "hidden", False, blank
    device.display(other)
    device.show()
    yield "another", True, other


def main(words):
    bad = 0
    for address in (0x3C, 0x3D):
        bus = Kept()
        for what, is_on, picture in steps(bus, address):
            if words == ["--commands"]:
                print("\n".join(commands(bus.writes)))
                return 0
            if shown(bus.writes, address) != (is_on, rows_of(picture)):
                print(f"luma.oled at {hex(address)}, {what}: another picture")
                bad = 1
    return bad


if __name__ == "__main__":
    sys.exit(main(sys.argv[1:]))
