"""Firmware as Intel HEX, also where a tool gives an ELF file alone, as PlatformIO and simavr have it."""
import struct

ROOM = 32768  # bytes of flash
BOOTED = 32256  # of them with a board's boot loader
RAM = 2048
DATA = 0x800000  # from here on are avr-gcc's addresses of data, EEPROM and fuses


def record(address, kind, data):
    body = bytes([len(data), address >> 8 & 255, address & 255, kind]) + data
    return ":" + (body + bytes([-sum(body) & 255])).hex().upper()


def hex_of(image):
    """Intel HEX of (address, bytes) in flash, 16 bytes a line."""
    lines = []
    for start, data in sorted(image):
        if start + len(data) > ROOM:
            raise ValueError("the firmware is too large for an Uno")
        for at in range(0, len(data), 16):
            lines.append(record(start + at, 0, data[at:at + 16]))
    return "\n".join([*lines, record(0, 1, b""), ""])


def segments_of_elf(elf):
    """(offset, address that the firmware uses, address where it is stored, bytes in the file, bytes in memory) of each loaded
    segment of an AVR's ELF file."""
    try:
        if elf[:6] != b"\x7fELF\x01\x01" or struct.unpack_from("<H", elf, 18)[0] != 83:
            raise ValueError("it is no ELF file of an AVR")
        table, = struct.unpack_from("<I", elf, 28)
        size, count = struct.unpack_from("<HH", elf, 42)
        rows = [struct.unpack_from("<IIIIII", elf, table + n * size) for n in range(count)]
    except struct.error:
        raise ValueError("the ELF file was cut") from None
    return [row[1:] for row in rows if row[0] == 1]


def image_of_elf(elf):
    """What an ELF file of an AVR has for the flash: (address, bytes) of each loaded segment."""
    image = []
    for offset, _, address, length, _ in segments_of_elf(elf):
        if length and address < DATA:
            if offset + length > len(elf):
                raise ValueError("the ELF file was cut")
            image.append((address, elf[offset:offset + length]))
    return image


def sizes_of_elf(elf):
    """(bytes of flash, bytes of RAM for variables) of an AVR's ELF file."""
    rows = segments_of_elf(elf)
    return sum(row[3] for row in rows if row[2] < DATA), sum(row[4] for row in rows if DATA <= row[1] < DATA + 0x10000)


def said_of_sizes(flash, ram):
    """What a build took, as the Arduino IDE counts it."""
    text = f"it takes {flash:,} bytes of flash ({100 * flash // BOOTED} % of {BOOTED:,}), and its variables {ram:,} bytes of RAM ({100 * ram // RAM} % of {RAM:,})"
    if flash > BOOTED:
        return text + ": too much for a board with a boot loader"
    return text + (f", which leaves {RAM - ram} for the stack: too few, perhaps" if 4 * (RAM - ram) < RAM else "")


def as_hex(path):
    """The bytes of a file of firmware as Intel HEX: a HEX file's own, or those that an ELF file becomes."""
    with open(path, "rb") as file:
        data = file.read()
    return hex_of(image_of_elf(data)).encode() if data[:4] == b"\x7fELF" else data
