"""The chip that types: its module with the texts to be typed in it (chips/typist.c)."""
import os
import struct

HERE = os.path.dirname(os.path.abspath(__file__))
MODULE = os.path.join(HERE, "chips", "typist.wasm")
MARK = b"what is typed:\n"
ROOM = 16384 - 16  # of the chip's `script` after its first line
DATA = 11  # the number of the section of data segments


def leb(number):
    """An unsigned number in LEB128."""
    out = bytearray()
    while True:
        number, low = number >> 7, number & 127
        out.append(low | (128 if number else 0))
        if not number:
            return bytes(out)


def signed_leb(number):
    out = bytearray()
    while True:
        number, low = number >> 7, number & 127
        last = number == (-1 if low & 64 else 0)
        out.append(low | (0 if last else 128))
        if last:
            return bytes(out)


def read_leb(data, at, signed=False):
    """(the number, the place after it)"""
    value = shift = 0
    while True:
        byte = data[at]
        at += 1
        value |= (byte & 127) << shift
        shift += 7
        if byte < 128:
            return (value - (1 << shift) if signed and byte & 64 else value), at


def with_segment(module, more):
    """The module with `more` in its memory after the mark, by one more data segment."""
    out, at, done = bytearray(module[:8]), 8, False
    while at < len(module):
        kind = module[at]
        size, start = read_leb(module, at + 1)
        body = module[start:start + size]
        at = start + size
        if kind == DATA:
            body = data_with(body, more)
            done = True
        out += bytes([kind]) + leb(len(body)) + body
    if not done:
        raise ValueError("the module has no data")
    return bytes(out)


def data_with(body, more):
    """A data section with one more segment, 16 bytes after the place of the mark."""
    count, at = read_leb(body, 0)
    first, address = at, None
    for _ in range(count):
        if body[at] != 0 or body[at + 1] != 0x41:
            raise ValueError("a data segment is of another kind")
        base, at = read_leb(body, at + 2, signed=True)
        size, at = read_leb(body, at + 1)
        if MARK in body[at:at + size]:
            address = base + body.index(MARK, at) - at
        at += size
    if address is None:
        raise ValueError("the mark is missing")
    segment = b"\x00\x41" + signed_leb(address + 16) + b"\x0b" + leb(len(more)) + more
    return leb(count + 1) + body[first:] + segment


def module(texts):
    """The module that types (microseconds, bytes), which are in the order of their times."""
    script = b"".join(struct.pack("<II", at, len(text)) + text for at, text in texts if text)
    if len(script) + 8 > ROOM:
        raise ValueError(f"all that is typed has more than {ROOM} bytes")
    with open(MODULE, "rb") as file:
        return with_segment(file.read(), script + bytes(8))
