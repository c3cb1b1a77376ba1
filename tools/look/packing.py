"""Packs waves for a page: of each change the cycles since the one before, times 4, plus its level, as a number of seven bits a
byte with the lowest first; the waves one after another, compressed and in base64. `page/wave.js` reads it."""
import base64
import zlib
from array import array

SHORT = [bytes((n,)) if n < 128 else bytes((n & 127 | 128, n >> 7)) for n in range(1 << 14)]


def number(n):
    out = bytearray()
    while n > 127:
        out.append(n & 127 | 128)
        n >>= 7
    return bytes(out) + bytes((n,))


def packed(waves):
    out = []
    for wave in waves:
        steps = ((b & ~3) - (a & ~3) | b & 3 for a, b in zip(array("I", (0,)) + wave, wave))
        out.append(b"".join([SHORT[n] if n < 1 << 14 else number(n) for n in steps]))
    return base64.b64encode(zlib.compress(b"".join(out), 9)).decode()


def unpacked(text, counts):
    """What `packed` was given; the page does the same."""
    data, at, waves = zlib.decompress(base64.b64decode(text)), 0, []
    for count in counts:
        wave, cycle = array("I"), 0
        for _ in range(count):
            n = shift = 0
            while True:
                byte = data[at]
                at += 1
                n |= (byte & 127) << shift
                shift += 7
                if byte < 128:
                    break
            cycle += n >> 2
            wave.append(cycle << 2 | n & 3)
        waves.append(wave)
    if at != len(data):
        raise ValueError("bytes after the last wave")
    return waves
