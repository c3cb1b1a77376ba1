"""Reads WebAssembly modules, and objects that clang writes: sections, imports, data and the instructions of functions.

Source: WebAssembly core specification, "Binary Format"; for the names of an object's functions the tool conventions' "Linking".
A module that is cut or of another form raises ValueError."""
import functools
from typing import Iterator, NamedTuple, Optional

CUSTOM, TYPE, IMPORT, FUNCTION, TABLE, MEMORY, GLOBAL, EXPORT, START, ELEMENT, CODE, DATA = range(12)
I32, I64, F32, F64 = 0x7F, 0x7E, 0x7D, 0x7C
CALL, CALL_INDIRECT, I32_CONST, PREFIX = 0x10, 0x11, 0x41, 0xFC
# By opcode, what comes after it: `u` an unsigned number, `s` a signed one, `4` and `8` so many bytes. Others have nothing.
IMMEDIATES = {
    0x0C: "u",
    0x0D: "u",
    0x10: "u",
    0x11: "uu",
    0x1C: "t",
    0x3F: "u",
    0x40: "u",
    0x41: "s",
    0x42: "s",
    0x43: "4",
    0x44: "8",
    0xD0: "s",
    0xD2: "u",
    0x0E: "b",
}
IMMEDIATES.update({opcode: "s" for opcode in (0x02, 0x03, 0x04)})
IMMEDIATES.update({opcode: "u" for opcode in range(0x20, 0x27)})
IMMEDIATES.update({opcode: "uu" for opcode in range(0x28, 0x3F)})
PREFIXED = {8: "uu", 9: "u", 10: "uu", 11: "u", 12: "uu", 13: "u", 14: "uu", 15: "u", 16: "u", 17: "u"}
# Instructions that put a float on the operand stack, or take one.
FLOAT = {
    0x2A,
    0x2B,
    0x38,
    0x39,
    0x43,
    0x44,
    *range(0x5B, 0x67),
    *range(0x8B, 0xA7),
    *range(0xA8, 0xAC),
    *range(0xAE, 0xB2),
    *range(0xB2, 0xC0),
} - {0xAC, 0xAD}


class Import(NamedTuple):
    """An imported thing: its module and name, its kind (0 a function, 1 a table, 2 a memory, 3 a global), and a function's type."""

    module: str
    name: str
    kind: int
    parameters: bytes
    result: bytes


class Instruction(NamedTuple):
    """An instruction: its opcode (after 0xFC that of the prefix times 256 and its number), what comes after it, and its place
    from the body's first byte."""

    opcode: int
    values: tuple
    at: int


class Reader:
    """Reads bytes from the first to the last."""

    def __init__(self, data: bytes, at: int = 0):
        self.data, self.at = data, at

    def byte(self) -> int:
        self.at += 1
        if self.at > len(self.data):
            raise ValueError("the module is cut")
        return self.data[self.at - 1]

    def number(self) -> int:
        value = shift = 0
        while True:
            byte = self.byte()
            value |= (byte & 0x7F) << shift
            shift += 7
            if byte < 0x80:
                return value

    def signed(self) -> int:
        value = shift = 0
        while True:
            byte = self.byte()
            value |= (byte & 0x7F) << shift
            shift += 7
            if byte < 0x80:
                return value - (1 << shift) if byte & 0x40 else value

    def take(self, count: int) -> bytes:
        self.at += count
        if self.at > len(self.data):
            raise ValueError("the module is cut")
        return self.data[self.at - count : self.at]

    def bytes(self) -> bytes:
        return self.take(self.number())

    def name(self) -> str:
        return self.bytes().decode("utf-8", "replace")

    def limits(self) -> tuple:
        """(least, most or None)"""
        flags = self.byte()
        least = self.number()
        return least, self.number() if flags & 1 else None


def sections(data: bytes) -> Iterator[tuple]:
    """(number, bytes) of each section of a module."""
    if data[:8] != b"\0asm\1\0\0\0":
        raise ValueError("it is no module")
    reader = Reader(data, 8)
    while reader.at < len(data):
        yield reader.byte(), reader.bytes()


class Module:
    """What a module has. Functions count from 0, the imported ones first."""

    def __init__(self, data: bytes):
        self.types: list = []
        self.imports: list = []
        self.types_of: list = []  # of the functions that are defined
        self.memories: list = []  # (least, most) pages
        self.tables: list = []
        self.exports: dict = {}  # by name: (kind, index)
        self.bodies: list = []  # the bytes of each function that is defined
        self.data: list = []  # (address, bytes) of the segments whose address is a constant
        self.customs: dict = {}
        for kind, body in sections(data):
            self.read(kind, Reader(body))

    def read(self, kind: int, section: Reader) -> None:
        if kind == CUSTOM:
            name = section.name()
            self.customs[name] = section.data[section.at :]
            return
        one = {
            TYPE: self.read_type,
            IMPORT: self.read_import,
            FUNCTION: lambda it: self.types_of.append(it.number()),
            MEMORY: lambda it: self.memories.append(it.limits()),
            TABLE: self.read_table,
            EXPORT: self.read_export,
            CODE: lambda it: self.bodies.append(it.bytes()),
            DATA: self.read_data,
        }.get(kind)
        if one:
            for _ in range(section.number()):
                one(section)

    def read_type(self, it: Reader) -> None:
        it.byte()
        self.types.append((it.bytes(), it.bytes()))

    def read_import(self, it: Reader) -> None:
        module, name, kind = it.name(), it.name(), it.byte()
        given = (b"", b"")
        if kind == 0:
            given = self.types[it.number()]
        elif kind == 1:
            it.byte()
            self.tables.append(it.limits())
        elif kind == 2:
            self.memories.append(it.limits())
        else:
            it.take(2)
        self.imports.append(Import(module, name, kind, *given))

    def read_table(self, it: Reader) -> None:
        it.byte()
        self.tables.append(it.limits())

    def read_export(self, it: Reader) -> None:
        name, kind, index = it.name(), it.byte(), it.number()
        self.exports[name] = kind, index

    def read_data(self, it: Reader) -> None:
        flags = it.number()
        address = None
        if flags != 1:
            if flags == 2:
                it.number()
            opcode = it.byte()
            if opcode == I32_CONST:
                address = it.signed()
                it.byte()
            else:
                while it.byte() != 0x0B:
                    pass
        segment = it.bytes()
        if address is not None:
            self.data.append((address, segment))

    def functions(self) -> list:
        """The imported functions."""
        return [it for it in self.imports if it.kind == 0]

    def imported(self, module: str, name: str) -> Optional[int]:
        """The number of an imported function."""
        return next(
            (place for place, it in enumerate(self.functions()) if (it.module, it.name) == (module, name)), None
        )

    def text_at(self, address: int) -> Optional[str]:
        """The text that ends with a 00 and begins at an address of the data at the start."""
        for start, segment in self.data:
            if start <= address < start + len(segment):
                end = segment.find(0, address - start)
                return segment[address - start : end if end >= 0 else None].decode("utf-8", "replace")
        return None

    def names_given(self, name: str) -> list:
        """The first argument, as a text of the module, of each call of the function `name` of `env`; None where it is computed.
        Of a call with two arguments that are constants, which is how compilers write them."""
        target, found = self.imported("env", name), []
        for body in self.bodies if target is not None else ():
            last: list = []
            for it in instructions(body):
                if it.opcode == CALL and it.values[0] == target:
                    constant = len(last) == 2 and last[0].opcode == last[1].opcode == I32_CONST
                    found.append(self.text_at(last[0].values[0] & 0xFFFFFFFF) if constant else None)
                last = [*last[-1:], it]
        return found


def locals_end(body: bytes) -> int:
    """Where the instructions of a body begin."""
    reader = Reader(body)
    for _ in range(reader.number()):
        reader.number()
        reader.byte()
    return reader.at


def value(reader: Reader, form: str):
    if form == "u":
        return reader.number()
    if form == "s":
        return reader.signed()
    if form == "b":
        return tuple(reader.number() for _ in range(reader.number() + 1))
    if form == "t":
        return reader.bytes()
    return reader.take(int(form))


def instructions(body: bytes) -> Iterator[Instruction]:
    """The instructions of a function's body."""
    reader = Reader(body, locals_end(body))
    while reader.at < len(body):
        at = reader.at
        opcode = reader.byte()
        if opcode == PREFIX:
            number = reader.number()
            forms, opcode = PREFIXED.get(number, ""), PREFIX << 8 | number
        else:
            forms = IMMEDIATES.get(opcode, "")
        yield Instruction(opcode, tuple(value(reader, form) for form in forms), at)


def is_float(it: Instruction) -> bool:
    return it.opcode in FLOAT or PREFIX << 8 <= it.opcode < PREFIX << 8 | 8


def function_names(module: Module) -> dict:
    """By number the names of an object's functions that it defines (tool conventions, "Linking", the symbol table)."""
    found: dict = {}
    if "linking" not in module.customs:
        return found
    section = Reader(module.customs["linking"])
    section.number()
    while section.at < len(section.data):
        kind, part = section.byte(), Reader(section.bytes())
        for _ in range(part.number() if kind == 8 else 0):
            what, flags = part.byte(), part.number()
            if what == 1:
                part.name()
                for _ in range(0 if flags & 0x10 else 3):
                    part.number()
            elif what == 3:
                part.number()
            else:
                index = part.number()
                if not flags & 0x10 or flags & 0x40:
                    name = part.name()
                    if what == 0:
                        found[index] = name
    return found


@functools.lru_cache(64)
def read(data: bytes) -> Module:
    return Module(data)
