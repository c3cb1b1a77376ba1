#!/usr/bin/env python3
"""Says whether a wasm module is one that a host may run, or changes the type of its table.

    module.py FILE.wasm               one memory, no imports, and the exports that a host calls; prints its size
    module.py --table32 FROM.wasm TO.wasm

A module for a memory of 64 bits declares a table of 64 bits too, which older engines and tools do not read. Where that table
has no entry, nothing can depend on its kind: `--table32` makes it one of 32 bits.
"""
import sys

IMPORT, TABLE, MEMORY, EXPORT, ELEMENT = 2, 4, 5, 7, 9
MEMORY_64 = 4               # the bit of a limit's flags
WANTED = {'memory': 2, 'mudflatjar': 0, 'room': 0}


class Fault(Exception):
    """Why the module is not taken."""


def number(data, at):
    """An unsigned LEB128 number, and where it ends."""
    value = shift = 0
    while True:
        if at >= len(data):
            raise Fault('a number is cut')
        byte = data[at]
        value |= (byte & 127) << shift
        shift, at = shift + 7, at + 1
        if byte < 128:
            return value, at


def sections(data):
    """(id, from, to) of each section's content."""
    if data[:8] != b'\0asm\1\0\0\0':
        raise Fault('no wasm module of version 1')
    at, found = 8, []
    while at < len(data):
        kind = data[at]
        size, start = number(data, at + 1)
        at = start + size
        if at > len(data):
            raise Fault('a section is cut')
        found.append((kind, start, at))
    return found


def exports(data, start):
    count, at = number(data, start)
    found = {}
    for _ in range(count):
        size, at = number(data, at)
        name, at = data[at:at + size].decode('utf-8', 'replace'), at + size
        found[name], at = data[at], at + 1
        _, at = number(data, at)
    return found


def part(found, kind):
    return next(((start, end) for number_, start, end in found if number_ == kind), None)


def check(data):
    """Stops at a module that a host cannot run; answers whether its memory has 64 bits."""
    found = sections(data)
    imports = part(found, IMPORT)
    if imports and number(data, imports[0])[0]:
        raise Fault('it has imports')
    memory = part(found, MEMORY)
    if not memory or number(data, memory[0])[0] != 1:
        raise Fault('it has not one memory')
    given = exports(data, part(found, EXPORT)[0]) if part(found, EXPORT) else {}
    for name, kind in WANTED.items():
        if given.get(name) != kind:
            raise Fault(f'it does not export {name}')
    return bool(data[number(data, memory[0])[1]] & MEMORY_64)


def table32(data):
    """The module with its empty table, if it has one, as one of 32 bits."""
    found = sections(data)
    if part(found, ELEMENT):
        raise Fault('its table has entries')
    table = part(found, TABLE)
    if not table:
        return data
    count, at = number(data, table[0])
    if count != 1:
        raise Fault(f'it has {count} tables')
    flags = at + 1                                      # after the type of its entries
    least, _ = number(data, flags + 1)
    if least > 1:                                       # place 0 is none of a function
        raise Fault('its table has places')
    return data[:flags] + bytes((data[flags] & ~MEMORY_64,)) + data[flags + 1:]


def main(words):
    try:
        if len(words) == 3 and words[0] == '--table32':
            with open(words[1], 'rb') as file:
                data = table32(file.read())
            with open(words[2], 'wb') as file:
                file.write(data)
        elif len(words) == 1:
            with open(words[0], 'rb') as file:
                data = file.read()
            print(f'{words[0].rsplit("/", 1)[-1]}: {len(data):,} bytes, a memory of {64 if check(data) else 32} bits, no imports')
        else:
            print(__doc__.strip(), file=sys.stderr)
            return 2
    except (OSError, Fault) as why:
        print(f'module: {why}', file=sys.stderr)
        return 1
    return 0


if __name__ == '__main__':
    sys.exit(main(sys.argv[1:]))
