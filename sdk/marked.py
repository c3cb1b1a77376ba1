"""A module that says in which of its functions it is: a copy of a chip's module that writes the number of the function at hand
into the one pixel of a display, so that the report of a run shows where a trap ended it. What it does else is the same, but for
the units of fuel that it costs."""
import wasm

NAMES = ("framebufferInit", "bufferWrite")
I32, I64 = bytes([wasm.I32]), bytes([wasm.I64])
TYPES = {"framebufferInit": (I32 * 2, I32), "bufferWrite": (I32 * 4, b"")}


def leb(number: int) -> bytes:
    """An unsigned number in LEB128."""
    out = bytearray()
    while True:
        number, low = number >> 7, number & 127
        out.append(low | (128 if number else 0))
        if not number:
            return bytes(out)


def signed(number: int) -> bytes:
    """A number from 0 up in signed LEB128."""
    out = bytearray()
    while True:
        number, low = number >> 7, number & 127
        last = not number and not low & 64
        out.append(low | (0 if last else 128))
        if last:
            return bytes(out)


def sized(body: bytes) -> bytes:
    return leb(len(body)) + body


def vector(items: list) -> bytes:
    return leb(len(items)) + b"".join(items)


def const(number: int) -> bytes:
    return bytes([wasm.I32_CONST]) + signed(number)


def call(function: int) -> bytes:
    return bytes([wasm.CALL]) + leb(function)


class Marked:
    """One module on its way. Functions that are imported anew come after those that were, so the numbers of all others move."""

    def __init__(self, data: bytes):
        self.module = wasm.Module(data)
        if (
            not self.module.memories
            or not self.module.memories[0][0]
            or set(NAMES) & {it.name for it in self.module.functions()}
        ):
            raise ValueError("it has no memory, or a display of its own")
        self.first = len(self.module.functions())
        self.types = len(self.module.types)
        self.init, self.write = self.first, self.first + 1
        defined = len(self.module.bodies)
        self.mark, self.begin = self.first + 2 + defined, self.first + 3 + defined
        self.buffer = self.globals(data)

    @staticmethod
    def globals(data: bytes) -> int:
        """How many globals a module has, the imported ones too."""
        count = sum(it.kind == 3 for it in wasm.Module(data).imports)
        return count + sum(wasm.Reader(body).number() for kind, body in wasm.sections(data) if kind == wasm.GLOBAL)

    def moved(self, function: int) -> int:
        return function + 2 if function >= self.first else function

    def body(self, body: bytes, number: int) -> bytes:
        """A function's body that marks where it begins and where it comes back to."""
        start = wasm.locals_end(body)
        mark = const(number + 1) + call(self.mark)
        opening = call(self.begin) if number == self.module.exports["chipInit"][1] else b""
        out, its = bytearray(body[:start] + opening + mark), list(wasm.instructions(body))
        for it, end in zip(its, [*(after.at for after in its[1:]), len(body)]):
            if it.opcode == wasm.CALL:
                out += call(self.moved(it.values[0])) + mark
            else:
                out += body[it.at : end] + (mark if it.opcode == wasm.CALL_INDIRECT else b"")
        return bytes(out)

    def own_bodies(self) -> list:
        """mark(n), which puts n into the pixel, and begin(), which asks for the display. Both use the memory's first bytes, and put
        back what was there."""
        at, get, put = const(0), bytes([0x20, 1]), bytes([0x21, 1])
        load, store = bytes([0x28, 2, 0]), bytes([0x36, 2, 0])
        global_get, global_set = bytes([0x23]) + leb(self.buffer), bytes([0x24]) + leb(self.buffer)
        mark = at + load + put + at + bytes([0x20, 0]) + store
        mark += global_get + const(0) + at + const(4) + call(self.write) + at + get + store + b"\x0b"
        load8, store8, get8, put8 = bytes([0x29, 3, 0]), bytes([0x37, 3, 0]), bytes([0x20, 0]), bytes([0x21, 0])
        begin = at + load8 + put8 + at + const(4) + call(self.init) + global_set + at + get8 + store8 + b"\x0b"
        return [b"\x01\x01" + I32 + mark, b"\x01\x01" + I64 + begin]

    def section(self, kind: int, data: bytes) -> bytes:
        """A section of the new module."""
        reader = wasm.Reader(data)
        if kind == wasm.TYPE:
            reader.number()
            new = [*(TYPES[name] for name in NAMES), (I32, b""), (b"", b"")]
            return (
                leb(self.types + len(new))
                + data[reader.at :]
                + b"".join(b"\x60" + sized(taken) + sized(given) for taken, given in new)
            )
        if kind == wasm.IMPORT:
            count = reader.number()
            new = b"".join(
                sized(b"env") + sized(name.encode()) + b"\0" + leb(self.types + place)
                for place, name in enumerate(NAMES)
            )
            return leb(count + 2) + data[reader.at :] + new
        if kind == wasm.FUNCTION:
            count = reader.number()
            return leb(count + 2) + data[reader.at :] + leb(self.types + 2) + leb(self.types + 3)
        if kind == wasm.GLOBAL:
            count = reader.number()
            return leb(count + 1) + data[reader.at :] + self.own_global()
        if kind == wasm.EXPORT:
            rows = []
            for _ in range(reader.number()):
                name, what, index = reader.bytes(), reader.byte(), reader.number()
                rows.append(sized(name) + bytes([what]) + leb(self.moved(index) if what == 0 else index))
            return vector(rows)
        if kind == wasm.START:
            return leb(self.moved(reader.number()))
        if kind == wasm.ELEMENT:
            return self.elements(reader)
        if kind == wasm.CODE:
            bodies = [self.body(body, self.first + place) for place, body in enumerate(self.module.bodies)]
            return vector([sized(body) for body in [*bodies, *self.own_bodies()]])
        return data

    @staticmethod
    def own_global() -> bytes:
        return I32 + b"\x01" + bytes([wasm.I32_CONST, 0x7F, 0x0B])

    def elements(self, reader: wasm.Reader) -> bytes:
        rows = []
        for _ in range(reader.number()):
            start = reader.at
            if reader.number() != 0:
                raise ValueError("a segment of functions of another kind")
            while reader.byte() != 0x0B:
                if reader.data[reader.at - 1] == wasm.I32_CONST:
                    reader.signed()
            head = reader.data[start : reader.at]
            rows.append(head + vector([leb(self.moved(reader.number())) for _ in range(reader.number())]))
        return vector(rows)

    def made(self, data: bytes) -> bytes:
        found = [(kind, body) for kind, body in wasm.sections(data) if kind != wasm.CUSTOM]
        kinds = [kind for kind, _ in found]
        for kind, empty in ((wasm.IMPORT, b"\0"), (wasm.GLOBAL, b"\0")):
            if kind not in kinds:
                place = sum(other < kind for other in kinds)
                found.insert(place, (kind, empty))
                kinds.insert(place, kind)
        return data[:8] + b"".join(bytes([kind]) + sized(self.section(kind, body)) for kind, body in found)


def marked(data: bytes) -> bytes:
    """The module with marks. Raises ValueError where it has a display of its own, or is of a form that is not read here."""
    return Marked(data).made(data)


def name_of(data: bytes, number: int) -> str:
    """A function's name in a module's name section, else its number."""
    module = wasm.Module(data)
    section = wasm.Reader(module.customs.get("name", b""))
    while section.at < len(section.data):
        kind, part = section.byte(), wasm.Reader(section.bytes())
        for _ in range(part.number() if kind == 1 else 0):
            index, name = part.number(), part.name()
            if index == number:
                return name
    return f"function {number}"
