#!/usr/bin/env python3
"""Writes down what the chip typist types.

    typist.py -o FOLDER/typist.wasm TIME TEXT [TIME TEXT] ..
    typist.py --attrs TIME TEXT [TIME TEXT] ..

With -o it makes the chip's module with the texts inside, up to 32 KB of them, and the list of its pins next to it. With
--attrs it prints the attributes for the part in diagram.json, for some 180 bytes in all.

TIME is in microseconds, as --us is, or has a unit: 500ms, 2s, 1500us. A text begins at its time, or when the text before it
is sent. In TEXT \\n is a line feed, \\r a carriage return, \\t a tab, \\0 a NUL, \\\\ a backslash and \\xHH the byte HH; all
else is UTF-8. The speed is the attribute `baud` of the part, 9600 where there is none.

Ends with 0, or with 2 where the words are not understood or the texts are too long."""
import json
import os
import re
import sys

HERE = os.path.dirname(os.path.abspath(__file__))
MODULE = os.path.join(HERE, "typist.wasm")
LATEST = 0xFFFFFFFE  # the last time that the chip can tell from none
ESCAPES = {"n": 10, "r": 13, "t": 9, "0": 0, "\\": 92}
UNITS = {"": 1, "us": 1, "ms": 1000, "s": 1000000}
ROOM = 32768  # typed[] in typist.c
NAMES = 64  # attributes of a chip


class Words(ValueError):
    """What is wrong with what was asked for."""


def unescaped(text):
    r"""The bytes of a text with escapes: unescaped(r"on\n") is b"on\n"."""

    def byte(match):
        escape = match[1]
        if escape in ESCAPES:
            return chr(ESCAPES[escape])
        if len(escape) == 3:
            # the bytes 80 to FF are kept apart from characters until the text is encoded
            number = int(escape[1:], 16)
            return chr(number if number < 128 else 0xDC00 + number)
        raise Words(f"{text!r}: \\{escape} is no escape; a backslash is \\\\")

    return re.sub(r"\\(x[0-9A-Fa-f]{2}|.|$)", byte, text, flags=re.S).encode("utf-8", "surrogateescape")


def microseconds(text):
    match = re.fullmatch(r"(\d+)(?:\.(\d{1,6}))?(us|ms|s|)", text)
    if not match:
        raise Words(f"{text!r} is no time: 1500, 1500us, 20ms or 1.5s")
    whole, part, unit = match[1], match[2] or "", match[3]
    value, rest = divmod(int(whole + part) * UNITS[unit], 10 ** len(part))
    if rest or value > LATEST:
        raise Words(f"{text!r} is no whole number of microseconds up to {LATEST}")
    return value


def attributes(pieces):
    """The attributes that type the pieces, pairs of a time in microseconds and bytes, in the order in which the chip asks.

    A byte is three decimal digits, and up to three bytes are one attribute; a text ends at one with fewer."""
    attrs = {}
    asked = 2  # `baud`, and the `at` that is missing at the end
    for n, (time, data) in enumerate([piece for piece in pieces if piece[1]], 1):
        attrs[f"at{n}"] = str(time)
        for m in range(0, len(data), 3):
            codes = [f"{byte:03}" for byte in data[m : m + 3]]
            if codes[0] == "000" and len(codes) > 1:
                codes[0] = "256"  # leading zeros do not count
            attrs[f"text{n}.{m // 3 + 1}"] = "".join(codes)
        asked += 2 + len(data) // 3
    if asked > NAMES:
        raise Words("the texts are too long for attributes: put them into the module with -o")
    return attrs


# ---- the module


def number_bytes(value):
    out = b""
    while True:
        value, byte = value >> 7, value & 0x7F
        out += bytes([byte | (0x80 if value else 0)])
        if not value:
            return out


def signed_bytes(value):
    """A number from 0 as the operand of i32.const."""
    out = b""
    while True:
        value, byte = value >> 7, value & 0x7F
        last = value == 0 and byte < 0x40
        out += bytes([byte | (0 if last else 0x80)])
        if last:
            return out


def read_number(data, at):
    value = shift = 0
    while True:
        byte = data[at]
        at += 1
        value |= (byte & 0x7F) << shift
        shift += 7
        if byte < 0x80:
            return value, at


def sections(data):
    """Number and content of each section."""
    at = 8
    while at < len(data):
        number = data[at]
        size, at = read_number(data, at + 1)
        yield number, data[at : at + size]
        at += size


def count_functions(imports):
    """How many functions are imported; all imports of the typist are functions."""
    return read_number(imports, 0)[0]


def exported(exports, name):
    count, at = read_number(exports, 0)
    for _ in range(count):
        size, at = read_number(exports, at)
        found, kind = exports[at : at + size], exports[at + size]
        index, at = read_number(exports, at + size + 1)
        if found == name and kind == 0:
            return index
    raise Words("typist.wasm is no typist: it exports no function `typed`")


def body(code, place):
    _, at = read_number(code, 0)
    for _ in range(place + 1):
        size, at = read_number(code, at)
        at += size
    return code[at - size : at]


def room_address(data):
    """The number that the function `typed` answers."""
    found = dict(sections(data))
    place = exported(found[7], b"typed") - count_functions(found[2])
    text = body(found[10], place)
    if text[:2] != b"\x00\x41" or text[-1] != 0x0B:
        raise Words("typist.wasm is no typist: `typed` answers no constant")
    return read_number(text, 2)[0]


def module(pieces, empty=None):
    """The typist's module with the pieces, pairs of a time in microseconds and bytes, as a further data segment."""
    if empty is None:
        with open(MODULE, "rb") as file:
            empty = file.read()
    record = b"".join(
        time.to_bytes(4, "little") + len(data).to_bytes(4, "little") + data for time, data in pieces if data
    )
    if len(record) + 8 > ROOM:
        raise Words(f"the texts are too long: {ROOM - 8} bytes, and 8 of them for each text")
    segment = b"\x00\x41" + signed_bytes(room_address(empty)) + b"\x0b" + number_bytes(len(record)) + record
    out = empty[:8]
    for number, content in sections(empty):
        if number == 11:
            count, at = read_number(content, 0)
            content = number_bytes(count + 1) + content[at:] + segment
        out += bytes([number]) + number_bytes(len(content)) + content
    return out


# ---- the words


def pairs(words):
    if not words or len(words) % 2:
        raise Words("a TIME and a TEXT for each text")
    return [(microseconds(time), unescaped(text)) for time, text in zip(words[::2], words[1::2])]


def write(path, data):
    with open(path, "wb") as file:
        file.write(data)


def main(words):
    try:
        if words[:1] in (["--help"], ["-h"]):
            print(__doc__)
        elif words[:1] == ["--attrs"]:
            attrs = attributes(pairs(words[1:]))
            print(",\n".join(f"{json.dumps(name)}: {json.dumps(value)}" for name, value in attrs.items()))
        elif words[:1] == ["-o"] and len(words) > 1 and words[1].endswith(".wasm"):
            write(words[1], module(pairs(words[2:])))
            with open(os.path.join(HERE, "typist.json"), "rb") as file:
                write(words[1][: -len(".wasm")] + ".json", file.read())
        else:
            raise Words("-o FOLDER/typist.wasm or --attrs, then TIME TEXT [TIME TEXT] ..")
    except (Words, OSError) as error:
        print(f"typist.py: {error}", file=sys.stderr)
        return 2
    return 0


if __name__ == "__main__":
    sys.exit(main(sys.argv[1:]))
