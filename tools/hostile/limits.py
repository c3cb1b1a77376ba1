"""What is as large as it may be: a firmware that begins with JMP and fills the flash, with its wave worked out; modules of the
most pages, or with a custom section of any length; diagrams."""

import json
import pathlib
from typing import Optional, Sequence

TOP = pathlib.Path(__file__).resolve().parents[2]
LONGEST, LONGEST_WAVE, FLASH = 1_048_576, 16_777_216, 32_768
# data addresses less 0x20, as OUT has them
PORTB, DDRB, PORTD, DDRD = 0x05, 0x04, 0x0B, 0x0A


# ---- firmware, by the AVR instruction set manual
def jmp(word: int) -> list[int]:
    return [0x940C | (word >> 17) << 4 | (word >> 16) & 1, word & 0xFFFF]


def ldi(register: int, value: int) -> list[int]:
    return [0xE000 | (value & 0xF0) << 4 | (register - 16) << 4 | value & 15]


def out(address: int, register: int) -> list[int]:
    return [0xB800 | (address & 0x30) << 5 | register << 4 | address & 15]


def add(to: int, register: int) -> list[int]:
    return [0x0C00 | (register & 16) << 5 | to << 4 | register & 15]


def rjmp(words: int) -> list[int]:
    return [0xC000 | words & 0xFFF]


def image(pieces: dict[int, list[int]]) -> bytes:
    """The flash with these words at these word addresses, NOP elsewhere."""
    flash = bytearray(FLASH)
    for at, words in pieces.items():
        for i, word in enumerate(words):
            flash[2 * (at + i) : 2 * (at + i) + 2] = word.to_bytes(2, "little")
    return bytes(flash)


def hex_text(flash: bytes, record: int = 16) -> str:
    """An image as Intel HEX, of records of so many bytes."""
    lines = []
    for at in range(0, len(flash), record):
        data = flash[at : at + record]
        line = bytes([len(data), at >> 8, at & 255, 0]) + data
        lines.append(f":{line.hex().upper()}{-sum(line) & 255:02X}\n")
    return "".join(lines) + ":00000001FF\n"


START = 0x3FF0
# all pins of ports D and B go out, and bytes that vary onto both
COUNTS = {
    0: jmp(START),
    START: [
        *ldi(16, 0xFF),
        *out(DDRD, 16),
        *out(DDRB, 16),
        *ldi(17, 1),
        *ldi(18, 0x4D),
        *out(PORTD, 17),
        *out(PORTB, 18),
        *add(17, 18),
        *add(18, 17),
        *rjmp(-5),
    ],
}


def counted(cycles: int) -> str:
    """The wave of COUNTS on an Uno alone: JMP takes three cycles, RJMP two, all others one, and what an instruction writes is on
    the pins in the next cycle."""
    names = [str(i) for i in range(14)] + [f"A{i}" for i in range(6)]
    codes = [chr(33 + i) for i in range(20)]
    text = "$timescale 100 ps $end\n$scope module board $end\n" + "".join(
        f"$var wire 1 {code} uno.{name} $end\n" for code, name in zip(codes, names)
    )
    text += "$upscope $end\n$enddefinitions $end\n#0\n$dumpvars\n" + "".join(f"z{code}\n" for code in codes) + "$end\n"
    shown, is_out, port = ["z"] * 20, {"B": False, "D": False}, {"B": 0, "D": 0}
    writes: dict[int, tuple[str, Optional[int]]] = {4: ("D", None), 5: ("B", None)}
    cycle, one, two = 8, 1, 0x4D
    while cycle < cycles:
        writes[cycle], writes[cycle + 1] = ("D", one), ("B", two)
        one = (one + two) & 255
        two = (two + one) & 255
        cycle += 6
    for cycle in range(cycles - 1):
        if cycle not in writes:
            continue
        which, value = writes[cycle]
        is_out[which] = True
        port[which] = port[which] if value is None else value
        now = (
            [str(port["D"] >> i & 1) if is_out["D"] else "z" for i in range(8)]
            + [str(port["B"] >> i & 1) if is_out["B"] else "z" for i in range(6)]
            + ["z"] * 6
        )
        if now != shown:
            text += f"#{625 * (cycle + 1)}\n" + "".join(
                f"{new}{code}\n" for new, old, code in zip(now, shown, codes) if new != old
            )
            shown = now
    return text + f"#{625 * cycles}\n"


# ---- modules, by the core specification's binary format
def leb(number: int, signed: bool = False) -> bytes:
    found = b""
    while True:
        low, number = number & 127, number >> 7
        if number == 0 and not (signed and low & 64) or signed and number == -1 and low & 64:
            return found + bytes([low])
        found += bytes([low | 128])


def section(number: int, content: bytes) -> bytes:
    return bytes([number]) + leb(len(content)) + content


def vector(items: Sequence[bytes]) -> bytes:
    return leb(len(items)) + b"".join(items)


def text(name: str) -> bytes:
    return leb(len(name)) + name.encode()


def const(value: int) -> bytes:
    return b"\x41" + leb(value, signed=True)


# types of functions: two numbers to one, nothing to nothing, four to one, four to nothing
TYPES = [
    b"\x60\x02\x7f\x7f\x01\x7f",
    b"\x60\x00\x00",
    b"\x60\x04\x7f\x7f\x7f\x7f\x01\x7f",
    b"\x60\x04\x7f\x7f\x7f\x7f\x00",
]


def chip(
    pages: int,
    body: bytes,
    data: dict[int, bytes],
    custom: int = 0,
    imports: Sequence[tuple[str, str, int]] = (("env", "pinInit", 0),),
) -> bytes:
    """A module of so many pages at the start, and 64 at most, which imports functions, each of a type, exports chipInit, and has a
    custom section of so many bytes."""
    code = b"\x00" + body + b"\x0b"
    named = vector([text(module) + text(name) + b"\x00" + leb(kind) for module, name, kind in imports])
    made = b"\x00asm\x01\x00\x00\x00" + section(1, vector(TYPES)) + section(2, named) + section(3, vector([b"\x01"]))
    made += section(5, vector([b"\x01" + leb(pages) + leb(max(64, pages))])) + section(
        7, vector([text("chipInit") + b"\x00" + leb(len(imports))])
    )
    made += section(10, vector([leb(len(code)) + code]))
    made += section(11, vector([b"\x00" + const(at) + b"\x0b" + leb(len(what)) + what for at, what in data.items()]))
    return made + (section(0, text("x") + bytes(custom)) if custom else b"")


def drives_high(name_at: int) -> bytes:
    return const(name_at) + const(17) + b"\x10\x00\x1a"


def fills(at: int, value: int, count: int) -> bytes:
    return const(at) + const(value) + const(count) + b"\xfc\x0b\x00"


def calls(function: int, *numbers: int) -> bytes:
    return b"".join(map(const, numbers)) + b"\x10" + leb(function)


def fills_both() -> bytes:
    """A chip that fills a console of 65,536 bytes in one call, and a display of 65,536 pixels in another; what it adds to them
    changes nothing."""
    imports = (("wasi_snapshot_preview1", "fd_write", 2), ("env", "framebufferInit", 0), ("env", "bufferWrite", 3))
    pieces = {8 * i: (4096).to_bytes(4, "little") * 2 for i in range(16)}
    drop = b"\x1a"
    body = (
        fills(4096, ord("x"), 4096)
        + calls(0, 1, 0, 16, 256)
        + drop
        + fills(4096, ord("y"), 1)
        + calls(0, 1, 0, 1, 256)
        + drop
    )
    body += (
        calls(1, 256, 260)
        + drop
        + fills(65536, 0xA5, 262144)
        + calls(2, 0, 0, 65536, 262144)
        + fills(65536, 0, 262144)
        + calls(2, 0, 1, 65536, 262144)
    )
    return chip(5, body, pieces, imports=imports)


PINS = '{"name": "c", "pins": ["OUT"]}\n'
NAMED = chip(1, drives_high(16), {16: b"OUT\0"})


# ---- diagrams
def board(parts: list[dict], connections: list[list[str]]) -> str:
    """A diagram."""
    return json.dumps({"version": 1, "parts": parts, "connections": connections}) + "\n"


def with_chips(many: int) -> str:
    """A diagram of an Uno and so many chips, wired to nothing."""
    parts = [{"type": "wokwi-arduino-uno", "id": "uno"}] + [{"type": "chip-c", "id": f"c{i}"} for i in range(many)]
    return board(parts, [])
