#!/usr/bin/env python3
"""A second reading of docs/DECODE.md: the frames on a bus, found by looking at every cycle of a wave.

    frames.py WAVE --uart NAME --bit N
    frames.py WAVE --spi SCK --data NAME --mode M
    frames.py WAVE --i2c SCL --sda NAME

writes the lines that `mudflatjar decode` with these words writes. It takes a byte for each cycle of a line,
and knows no refusals: a wave that is none ends it with 1 and a line on standard error.
"""
import argparse
import re
import sys

CYCLE = 625


def readings(path, names):
    """What an input reads of each of these variables in each cycle, as bytes of 0 and 1."""
    codes, changes, cycle = {}, {}, 0
    with open(path, encoding="ascii") as wave:
        for line in wave:
            words = line.split()
            if words and words[0] == "$var":
                codes.setdefault(words[4], words[3])
                changes.setdefault(words[3], [])
            elif line[0] == "#":
                cycle = int(line[1:]) // CYCLE
            elif line[0] in "01xz":
                changes[line[1:].strip()].append((cycle, line[0] == "1"))
    lines = []
    for name in names:
        rows = [*changes[codes[name]], (cycle, False)]
        levels = bytearray()
        for (_, value), (until, _) in zip(rows, rows[1:]):
            levels += (b"\1" if value else b"\0") * (until - len(levels))
        lines.append(levels)
    return lines


def edges(*lines):
    """The cycles in which one of these lines reads another value than in the cycle before."""
    return sorted({run.start() for line in lines for run in re.finditer(b"\0+|\1+", line)} - {0})


def uart(line, bit):
    """Each byte is eight bits, the lowest first, between a start bit of 0 and a stop bit of 1."""
    at, end, half = 1, len(line), bit // 2
    while at := line.find(b"\1\0", at - 1) + 1:
        if at + half >= end:
            return
        if line[at + half]:
            at += half + 1
            continue
        stop = at + 9 * bit + half
        if stop >= end:
            return
        byte = sum(line[at + (k + 1) * bit + half] << k for k in range(8))
        yield f"uart {at} 0x{byte:02X} {'ok' if line[stop] else 'framing'}"
        at = stop + 1


def spi(clock, data, mode):
    """A bit comes at one of the clock's two edges, the highest of a byte first."""
    idle, second = mode >> 1, mode & 1
    reads = idle if second else 1 - idle
    bits = []
    for t in edges(clock):
        if clock[t] == reads:
            bits.append(data[t])
            if len(bits) == 8:
                yield f"spi {t} 0x{int(''.join(map(str, bits)), 2):02X}"
                bits = []


def i2c(clock, data):
    """Data that change while the clock is 1 begin and end; else they are bits where it rises."""
    bits = None
    for t in edges(clock, data):
        if clock[t - 1] and clock[t]:
            yield f"i2c {t} {'stop' if data[t] else 'start'}"
            bits = None if data[t] else []
        elif clock[t] and bits is not None:
            bits.append(data[t])
            if len(bits) == 9:
                yield f"i2c {t} 0x{int(''.join(map(str, bits[:8])), 2):02X} {'nack' if bits[8] else 'ack'}"
                bits = []


def frames(words):
    """The lines for the words of a command line."""
    if words.uart is not None:
        return uart(*readings(words.wave, [words.uart]), words.bit)
    if words.spi is not None:
        return spi(*readings(words.wave, [words.spi, words.data]), words.mode)
    return i2c(*readings(words.wave, [words.i2c, words.sda]))


def main():
    parser = argparse.ArgumentParser(description="The frames on a bus, read from a wave cycle by cycle.")
    parser.add_argument("wave")
    bus = parser.add_mutually_exclusive_group(required=True)
    bus.add_argument("--uart")
    bus.add_argument("--spi")
    bus.add_argument("--i2c")
    parser.add_argument("--bit", type=int)
    parser.add_argument("--data")
    parser.add_argument("--mode", type=int)
    parser.add_argument("--sda")
    words = parser.parse_args()
    wanted = {"uart": ["bit"], "spi": ["data", "mode"], "i2c": ["sda"]}
    for name, others in wanted.items():
        if getattr(words, name) is not None and None in [getattr(words, other) for other in others]:
            parser.error(f"--{name} asks for --{' and --'.join(others)}")
    try:
        for line in frames(words):
            print(line)
    except (OSError, KeyError, ValueError, IndexError) as error:
        print(f"{words.wave}: {type(error).__name__}: {error}", file=sys.stderr)
        return 1
    return 0


if __name__ == "__main__":
    sys.exit(main())
