"""boards.py PEER FIRST LAST [FOLDER]: random boards with OLEDs, text displays and keypads, one for each seed from FIRST to LAST. The
firmware drives the buses with good and broken frames and sends what pins read; a script presses keys. The wave, the bytes and
the report of PROGRAM have to be those of PEER, which is uno.c and board.c linked with each other. Of a seed that differs the files stay in
FOLDER. Ends with 1 where one differs.
"""
import json
import os
import random
import subprocess
import sys
import tempfile

PORTS = {"B": 0x03, "C": 0x06, "D": 0x09}  # the I/O address of PINx; DDRx and PORTx follow
PIN_AT = [("D", bit) for bit in range(8)] + [("B", bit) for bit in range(6)] + [("C", bit) for bit in range(6)]
PIN_NAMES = [str(k) for k in range(14)] + ["A%d" % k for k in range(6)]
UCSR0A, UCSR0B, UBRR0L, UDR0 = 0xC0, 0xC1, 0xC4, 0xC6
TWBR, TWSR, TWDR, TWCR = 0xB8, 0xB9, 0xBB, 0xBC
FLASH_WORDS = 0x4000


class Code:
    """Instructions one after another, and a guess at the cycles that they take."""

    def __init__(self):
        self.words, self.cycles = [], 0
        self.held = {}  # the values of registers 16 to 24, so that two changes may come in two cycles

    def put(self, cycles, *words):
        self.words += words
        self.cycles += cycles

    def load(self, register, value):
        self.put(1, 0xE000 | (value & 0xF0) << 4 | (register - 16) << 4 | value & 15)

    def out(self, address, value):
        if value not in self.held.values():
            register = 16 + len(self.held) if len(self.held) < 9 else next(iter(self.held))
            self.held.pop(register, None)
            self.held[register] = value
            self.load(register, value)
        register = next(register for register, held in self.held.items() if held == value)
        self.put(1, 0xB800 | (address & 0x30) << 5 | register << 4 | address & 15)

    def read(self, register, address):
        self.put(1, 0xB000 | (address & 0x30) << 5 | register << 4 | address & 15)

    def store(self, address, register):
        self.put(2, 0x9200 | register << 4, address)

    def fetch(self, register, address):
        self.put(2, 0x9000 | register << 4, address)

    def bit(self, address, bit, value):
        self.put(2, (0x9A00 if value else 0x9800) | address << 3 | bit)

    def wait(self, cycles):
        self.put(2 * (cycles // 2), *[0xC000] * (cycles // 2))
        self.put(cycles % 2, *[0] * (cycles % 2))

    def set(self, address, value):
        self.load(26, value)
        self.store(address, 26)

    def send_pins(self, port):
        """What the pins of a port read goes out as a byte."""
        self.read(25, PORTS[port])
        self.store(UDR0, 25)

    def hex(self):
        data = b"".join(word.to_bytes(2, "little") for word in self.words[:FLASH_WORDS])
        lines = []
        for at in range(0, len(data), 16):
            record = bytes([len(data[at:at + 16])]) + at.to_bytes(2, "big") + b"\0" + data[at:at + 16]
            lines.append(":%s%02X\n" % (record.hex().upper(), -sum(record) & 0xFF))
        return "".join(lines) + ":00000001FF\n"


class Lines:
    """SCL and SDA on two pins of one port: `let_go` leaves a high line to a pull-up, else it is driven high."""

    def __init__(self, code, chance, port, scl, sda, let_go):
        self.code, self.chance, self.port, self.bits, self.let_go = code, chance, port, (scl, sda), let_go
        self.levels = [1, 1]
        self.rest = chance.choice([0, 0, 0, 0, 1, 3, 8])
        self.at_once = chance.random() < 0.5
        self.others = [chance.randrange(256), chance.randrange(256)]  # DDRx and PORTx of the other pins
        if port == "D":
            self.others = [value & ~3 for value in self.others]
        if chance.random() < 0.3:
            self.others[1] |= 1 << scl | 1 << sda  # the Uno's pull-ups; low lines are driven high then
        self.write(both=True)

    def values(self):
        direction, port = self.others
        for level, bit in zip(self.levels, self.bits):
            mask = 1 << bit
            if self.let_go:
                direction = direction & ~mask if level else direction | mask
                port = port if level else port & ~mask
            else:
                direction, port = direction | mask, port | mask if level else port & ~mask
        return direction, port

    def write(self, both=False):
        code, (direction, port), base = self.code, self.values(), PORTS[self.port]
        if both or self.let_go and self.others[1] & (1 << self.bits[0] | 1 << self.bits[1]):
            order = [(base + 2, port), (base + 1, direction)]
        else:
            order = [(base + 1, direction)] if self.let_go else [(base + 2, port)]
        for address, value in order:
            code.out(address, value)

    def now(self, scl=None, sda=None):
        was = list(self.levels)
        self.levels = [was[0] if scl is None else scl, was[1] if sda is None else sda]
        plain = not self.let_go or not self.others[1] & (1 << self.bits[0] | 1 << self.bits[1])
        if plain and not self.at_once and sum(a != b for a, b in zip(was, self.levels)) == 1:
            k = 0 if was[0] != self.levels[0] else 1
            level = self.levels[k]
            self.code.bit(PORTS[self.port] + (1 if self.let_go else 2), self.bits[k], not level if self.let_go else level)
        else:
            self.write()
        if self.rest:
            self.code.wait(self.chance.randrange(self.rest + 1))

    def start(self):
        self.now(sda=1)
        self.now(scl=1)
        self.now(sda=0)
        self.now(scl=0)

    def stop(self):
        self.now(scl=0)
        self.now(sda=0)
        self.now(scl=1)
        self.now(sda=1)

    def bit(self, value):
        self.now(sda=value)
        self.now(scl=1)
        self.now(scl=0)

    def answer(self, byte_ends=True):
        self.now(sda=1)
        self.now(scl=1)
        if self.chance.random() < 0.3:
            self.code.send_pins(self.port)
        self.now(scl=0)

    def byte(self, value):
        for k in range(8):
            self.bit(value >> (7 - k) & 1)
        self.answer()

    def broken_byte(self, value):
        """A byte in which something goes wrong."""
        how, at = self.chance.randrange(9), self.chance.randrange(9)
        for k in range(8):
            if k == at and how == 0:
                self.start()
            if k == at and how == 1:
                self.stop()
            if k == at and how == 2:
                break
            if k == at and how == 3:
                self.now(scl=1, sda=self.chance.randrange(2))
                self.now(scl=0)
            if k == at and how == 4:
                self.now(scl=1 - self.levels[0], sda=1 - self.levels[1])
            if k == at and how == 5:  # SDA changes while SCL is high
                self.now(scl=1)
                self.now(sda=1 - self.levels[1])
            self.bit(value >> (7 - k) & 1)
        if how == 6:  # no ninth bit
            return
        if how == 7:  # SDA is held low in it
            self.bit(0)
        elif how == 8:  # START or STOP in it
            self.now(sda=self.chance.randrange(2))
            self.now(scl=1)
            self.now(sda=1 - self.levels[1])
            self.now(scl=0)
        else:
            self.answer()

    def noise(self):
        for _ in range(self.chance.randrange(1, 12)):
            self.now(self.chance.randrange(2), self.chance.randrange(2))


class Unit:
    """The same calls on the TWI of the Uno, whose status goes out after each."""

    def __init__(self, code, chance):
        self.code, self.chance = code, chance
        code.set(TWBR, chance.choice([0, 0, 0, 1, 5, 12]))
        code.set(TWSR, chance.choice([0, 0, 0, 1]))
        if chance.random() < 0.7:
            code.bit(PORTS["C"] + 2, 4, 1)
            code.bit(PORTS["C"] + 2, 5, 1)

    def act(self, control, waits=True):
        self.code.set(TWCR, control)
        if waits:
            self.code.fetch(27, TWCR)
            self.code.put(1, 0xFFB7)  # SBRS r27, 7
            self.code.put(2, 0xCFFC)  # back to the fetch
            self.code.fetch(27, TWSR)
            self.code.store(UDR0, 27)
            self.code.cycles += 60

    def start(self):
        self.act(0xA4)

    def stop(self):
        self.act(0x94, waits=False)
        self.code.wait(self.chance.randrange(80))

    def byte(self, value):
        self.code.set(TWDR, value)
        self.act(0x84)
        self.code.cycles += 130

    def broken_byte(self, value):
        self.code.set(TWDR, value)
        self.act(self.chance.choice([0x84, 0x84, 0x94, 0xA4, 0xB4, 0x80, 0x04, 0xC4]), waits=False)
        self.code.wait(self.chance.randrange(300))
        if self.chance.random() < 0.3:
            self.code.set(TWCR, self.chance.choice([0x00, 0x04, 0x84]))

    def noise(self):
        self.code.wait(self.chance.randrange(40))


# the usual sketch's way to begin, as the data sheet's application note has it
BEGIN = bytes.fromhex("AE D5 80 A8 3F D3 00 40 8D 14 20 00 A1 C8 DA 12 81 CF D9 F1 DB 40 A4 A6 2E AF")
WITH_PARAMETERS = {0x20: 1, 0x21: 2, 0x22: 2, 0x81: 1, 0x8D: 1, 0xA8: 1, 0xD3: 1, 0xD5: 1, 0xD9: 1, 0xDA: 1, 0xDB: 1,
                   0xA3: 2, 0x29: 5, 0x2A: 5, 0x26: 6, 0x27: 6}


def window(chance, places):
    """First and last, mostly close to each other or to the end, now and then the wrong way round or with further bits."""
    first = chance.randrange(places)
    last = chance.choice([first, min(first + chance.randrange(1, 5), places - 1), places - 1, chance.randrange(256)])
    return [first | chance.choice([0, 0, 0, 256 - places]), last] if chance.random() < 0.9 else [last, first]


def command(chance):
    """The bytes of one command, mostly of one that moves where data go."""
    kind = chance.randrange(12)
    if kind < 2:
        return [0x20, chance.choice([0, 0, 1, 1, 2, 3, chance.randrange(256)])]
    if kind < 4:
        return [0x21] + window(chance, 128)
    if kind < 6:
        return [0x22] + window(chance, 8)
    if kind == 6:
        return [chance.randrange(0x20)]
    if kind == 7:
        return [0xB0 + chance.randrange(8)]
    if kind == 8:
        return [chance.choice([0xA4, 0xA4, 0xA5, 0xA6, 0xA7, 0xAE, 0xAF, 0xAF])]
    if kind == 9:
        byte = chance.choice(list(WITH_PARAMETERS))
        return [byte] + [chance.randrange(256) for _ in range(WITH_PARAMETERS[byte])]
    return [chance.randrange(256)]


def commands(chance):
    told = []
    for _ in range(chance.randrange(1, 6)):
        told += command(chance)
    return told[:len(told) - chance.randrange(3)] if chance.random() < 0.15 else told


def data(chance):
    return [chance.randrange(256) for _ in range(chance.choice([1, 3, 10, 30, 80]))]


def payload(chance):
    """The bytes of one write after its address."""
    kind = chance.randrange(8)
    if kind == 0:
        return [0] + list(BEGIN)
    if kind < 3:
        return [0] + commands(chance)
    if kind < 6:
        return [0x40] + data(chance)
    if kind == 6:  # one byte after each control byte, and a rest
        told = []
        for _ in range(chance.randrange(1, 8)):
            told += [0x80, chance.choice(commands(chance) or [0])] if chance.random() < 0.5 else [0xC0, chance.randrange(256)]
        return told + chance.choice([[], [0x40] + data(chance)[:20], [0] + commands(chance), [0x80]])
    return [chance.randrange(256) for _ in range(chance.randrange(6))]


def expander_byte(chance, byte, is_data):
    """The bytes that give a text display by I2C one byte in two halves."""
    return [half | is_data | 8 | enable for half in (byte & 0xF0, byte << 4 & 0xF0) for enable in (4, 0)]


def text_payload(chance):
    told = []
    for _ in range(chance.randrange(1, 8)):
        if chance.random() < 0.5:
            told += expander_byte(chance, chance.choice([0x28, 0x0C, 0x80 + chance.randrange(128), 0x01, 0x02, 0x06, 0x04]), 0)
        else:
            told += expander_byte(chance, chance.randrange(0x20, 0x7F), 1)
    return told + ([chance.randrange(256)] if chance.random() < 0.2 else [])


def frame(bus, chance, addresses, broken):
    """One write, or something like it."""
    if chance.random() < broken:
        bus.noise()
    if chance.random() > broken / 2:
        bus.start()
    address = chance.choice(addresses)
    kind = chance.random()
    first = 2 * address if kind < 0.9 else 2 * address + 1 if kind < 0.95 else chance.randrange(256)
    for byte in [first] + (text_payload(chance) if address == 0x27 else payload(chance)):
        if chance.random() < broken:
            bus.broken_byte(byte)
        else:
            bus.byte(byte)
    if chance.random() > broken / 2 and chance.random() < 0.8:
        bus.stop()


def whole(on, told):
    """The same write to each OLED."""
    for bus, addresses in on:
        for address in sorted(set(addresses) - {0x27}):
            bus.start()
            for byte in [2 * address] + told:
                bus.byte(byte)
            bus.stop()


def firmware(chance, buses, cycles):
    """Frames on each bus, what pins read between them, and directions and values of other pins. Of each bus the pins, None for
    those of the TWI, and the addresses of what is on it."""
    code = Code()
    code.set(UCSR0A, 2)
    code.set(UBRR0L, 0)
    code.set(UCSR0B, 8)
    on = [(Unit(code, chance) if pins is None else Lines(code, chance, *pins), addresses) for pins, addresses in buses]
    free = [port for port in PORTS if port not in {pins[0] if pins else "C" for pins, _ in buses}]
    broken = chance.choice([0, 0, 0.005, 0.005, 0.02, 0.1, 0.3])
    if chance.random() < 0.8:
        whole(on, [0] + list(BEGIN))
    until = code.cycles + cycles
    while code.cycles < until and len(code.words) < FLASH_WORDS - 3500:
        kind = chance.random()
        if on and kind < 0.8:
            bus, addresses = chance.choice(on)
            frame(bus, chance, addresses, broken)
        elif kind < 0.9:
            code.send_pins(chance.choice(list(PORTS)))
            code.wait(chance.randrange(90))
        elif free:
            port = chance.choice(free)
            code.out(PORTS[port] + chance.randrange(1, 3), chance.randrange(256) & ~(3 if port == "D" else 0))
            code.wait(chance.randrange(4))
    if chance.random() < 0.85:  # so that what is stored shows, whatever waits for parameters
        whole(on, [0] + [0xE3] * 6 + [chance.choice([0xA4] * 9 + [0xA5]), 0xA6 + chance.randrange(2), 0xAF])
    if chance.random() < 0.8:
        code.put(2, 0xCFFF)
    return code


OTHERS = {
    "wokwi-led": ["A", "C"], "wokwi-resistor": ["1", "2"], "wokwi-junction": ["J"], "wokwi-vcc": ["VCC"], "wokwi-gnd": ["GND"],
    "wokwi-pushbutton": ["1.l", "1.r", "2.l", "2.r"], "wokwi-slide-switch": ["1", "2", "3"],
    "wokwi-dip-switch-8": [str(k) + side for side in "ab" for k in range(1, 9)], "wokwi-potentiometer": ["GND", "SIG", "VCC"],
    "wokwi-gate-not": ["IN", "OUT"], "wokwi-gate-buffer": ["IN", "OUT"], "wokwi-gate-and-2": ["A", "B", "OUT"],
    "wokwi-gate-xor-2": ["A", "B", "OUT"], "wokwi-gate-nand-2": ["A", "B", "OUT"], "board-source": ["OUT"],
}
KEYPAD = ["R1", "R2", "R3", "R4", "C1", "C2", "C3", "C4"]
GREATEST = {"wokwi-membrane-keypad": 65535, "wokwi-pushbutton": 1, "wokwi-slide-switch": 1, "wokwi-dip-switch-8": 255,
            "wokwi-potentiometer": 1023, "board-source": 2}


class Board:
    def __init__(self, chance):
        self.chance, self.parts, self.wires, self.pins = chance, [], [], []
        self.add("wokwi-arduino-uno", PIN_NAMES + ["5V", "GND.1"])

    def add(self, kind, ends, **attributes):
        name = "p%d" % len(self.parts)
        self.parts.append({"type": kind, "id": name, "top": 0, "left": 0, "attrs": attributes})
        self.pins += ["%s:%s" % (name, pin) for pin in ends]
        return name

    def wire(self, a, b):
        self.wires.append([a, b, "green", ["v0"]])

    def pull_up(self, end):
        resistor = self.add("wokwi-resistor", ["1", "2"], value="4700")
        self.wire(end, resistor + ":1")
        self.wire(resistor + ":2", "p0:5V")

    def join(self, end, to):
        """A wire, mostly; else over a resistor or not at all."""
        kind = self.chance.random()
        if kind < 0.95:
            self.wire(end, to)
        elif kind < 0.98:
            resistor = self.add("wokwi-resistor", ["1", "2"])
            self.wire(end, resistor + ":1")
            self.wire(resistor + ":2", to)

    def bus(self):
        """The pins of a bus of the Uno, None for those of its TWI, with pull-ups or without."""
        chance = self.chance
        if chance.random() < 0.25:
            scl, sda, bus = "p0:A5", "p0:A4", None
            if chance.random() < 0.5:
                self.pull_up(scl)
                self.pull_up(sda)
            return bus, scl, sda
        port = chance.choice("BCCD")
        bits = [bit for name, bit in PIN_AT if name == port and not (port == "D" and bit < 2)]
        a, b = chance.sample(bits, 2)
        scl, sda = ("p0:" + PIN_NAMES[PIN_AT.index((port, bit))] for bit in (a, b))
        if chance.random() < 0.95:
            self.pull_up(scl)
            self.pull_up(sda)
        return (port, a, b, chance.random() < 0.8), scl, sda

    def on_bus(self, scl, sda, addresses):
        chance = self.chance
        if addresses and chance.random() < 0.2:
            display = self.add("wokwi-lcd1602", ["SDA", "SCL"], pins="i2c")
            addresses.append(0x27)
        else:
            address, text = chance.choice([(0x3C, None), (0x3C, "0x3c"), (0x3D, "0x3D"), (0x3D, "61"), (0x3C, "060"), (5, "0x5")])
            display = self.add("board-ssd1306", ["SCL", "SDA"], **({"i2cAddress": text} if text else {}))
            addresses += [address] * 3
        self.join(display + ":SCL", scl)
        self.join(display + ":SDA", sda)

    def keypad(self):
        chance = self.chance
        keypad = self.add("wokwi-membrane-keypad", KEYPAD)
        for pin in KEYPAD:
            if chance.random() < 0.9:
                self.join("%s:%s" % (keypad, pin), chance.choice(self.pins))
            if chance.random() < 0.1:
                self.pull_up("%s:%s" % (keypad, pin))

    def others(self):
        chance = self.chance
        for _ in range(chance.choice([0, 0, 1, 2, 5])):
            kind = chance.choice(list(OTHERS))
            part = self.add(kind, OTHERS[kind])
            for pin in OTHERS[kind]:
                if chance.random() < 0.6:
                    self.wire("%s:%s" % (part, pin), chance.choice(self.pins))

    def script(self, cycles):
        set_parts = [(part["id"], GREATEST[part["type"]]) for part in self.parts if part["type"] in GREATEST]
        if not set_parts:
            return ""
        lines = []
        for time in sorted(self.chance.randrange(cycles) for _ in range(self.chance.choice([0, 3, 20, 60]))):
            name, greatest = self.chance.choice(set_parts)
            one_key = 1 << self.chance.randrange(16)
            value = min(greatest, one_key) if self.chance.random() < 0.5 else self.chance.randrange(greatest + 1)
            lines.append("%dcy set %s %d\n" % (time, name, value))
        return "".join(lines)


def make(seed, folder):
    """Writes the board of a seed; answers how many microseconds it is run."""
    chance = random.Random(seed)
    board, buses = Board(chance), []
    for _ in range(chance.choice([0, 1, 1, 1, 1, 1, 1, 2])):
        pins, scl, sda = board.bus()
        if pins in [pins for pins, _ in buses]:
            continue
        addresses = []
        for _ in range(chance.choice([1, 1, 2, 3])):
            board.on_bus(scl, sda, addresses)
        buses.append((pins, addresses))
    for _ in range(chance.choice([0, 0, 1, 2]) if buses else 1 + chance.randrange(2)):
        board.keypad()
    if chance.random() < 0.3:
        board.others()
    code = firmware(chance, buses, chance.choice([2000, 8000, 20000] if buses else [500, 2000]))
    us = (code.cycles + 500 if chance.random() < 0.9 else chance.randrange(1, code.cycles + 500)) // 16 + 1
    files = {
        "wokwi.toml": "[wokwi]\nversion = 1\nfirmware = 'f.hex'\n", "f.hex": code.hex(), "script.txt": board.script(16 * us),
        "diagram.json": json.dumps({"version": 1, "author": "made", "editor": "wokwi", "parts": board.parts, "connections": board.wires},
                                   indent=1) + "\n",
    }
    for name, text in files.items():
        with open(os.path.join(folder, name), "w", encoding="ascii") as file:
            file.write(text)
    return us


def differs(program, peer, folder, us):
    """The outputs that are not the same, by name; what the program or the peer says where one fails."""
    at = lambda name: os.path.join(folder, name)  # noqa: E731
    ours = subprocess.run([program, "run", folder, "--us", str(us), "--script", at("script.txt"), "--vcd", at("ours.vcd"),
                           "--report", at("ours.report")], stdout=subprocess.PIPE, stderr=subprocess.PIPE, check=False)
    theirs = subprocess.run([peer, at("diagram.json"), str(16 * us), "script=" + at("script.txt"), "firmware=" + at("f.hex"),
                             "serial=" + at("theirs.bytes"), "report=" + at("theirs.report")],
                            stdout=subprocess.PIPE, stderr=subprocess.PIPE, check=False)
    if ours.returncode or theirs.returncode:
        return ["status %d, %d" % (ours.returncode, theirs.returncode), (ours.stderr + theirs.stderr).decode(errors="replace").strip()]
    with open(at("theirs.vcd"), "wb") as file:
        file.write(theirs.stdout)
    with open(at("ours.bytes"), "wb") as file:
        file.write(ours.stdout)
    found = []
    for kind in ("vcd", "bytes", "report"):
        with open(at("ours." + kind), "rb") as one, open(at("theirs." + kind), "rb") as other:
            if one.read() != other.read():
                found.append(kind)
    return found


def main():
    peer, first, last = sys.argv[1], int(sys.argv[2]), int(sys.argv[3])
    here = os.path.dirname(os.path.abspath(__file__))
    program = os.environ.get("PROGRAM", os.path.join(here, "../../target/mudflatjar"))
    kept, bad = sys.argv[4] if len(sys.argv) > 4 else None, 0
    for seed in range(first, last + 1):
        with tempfile.TemporaryDirectory() as made:
            folder = os.path.join(kept, str(seed)) if kept else made
            os.makedirs(folder, exist_ok=True)
            found = differs(program, peer, folder, make(seed, folder))
            if found:
                bad += 1
                print("board of seed %d: another %s" % (seed, ", ".join(found)))
            elif kept:
                for name in os.listdir(folder):
                    os.remove(os.path.join(folder, name))
                os.rmdir(folder)
    print("%d random boards, %d differ" % (last + 1 - first, bad))
    return 1 if bad else 0


if __name__ == "__main__":
    sys.exit(main())
