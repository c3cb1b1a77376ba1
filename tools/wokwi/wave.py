"""Reads waves (docs/WAVE.md) in cycles of 62.5 ns, and where in time the bytes are that the Uno sent."""
import bisect

UNITS = 625  # of a wave's time in a cycle
CYCLES = 16  # in a microsecond


class Wave:
    """The changes of some variables: for each name a list of (cycle, value), the first in cycle 0."""

    def __init__(self, path, names):
        codes, self.lines, at = {}, {name: [] for name in names}, 0
        with open(path, "rb") as file:
            for line in file:
                if line.startswith(b"$var "):
                    words = line.decode("utf-8", "replace").split()
                    if words[4] in self.lines:
                        codes.setdefault(words[3].encode(), []).append(self.lines[words[4]])
                elif line.startswith(b"$enddefinitions"):
                    break
            for line in file:
                if line[0] == 35:  # '#'
                    at = int(line[1:]) // UNITS
                elif line[0] != 36 and line[1:-1] in codes:  # '$'
                    for changes in codes[line[1:-1]]:
                        changes.append((at, chr(line[0])))
        self.missing = [name for name in names if not self.lines[name]]

    def place(self, name, cycle):
        """The last change of a variable at or before a cycle, as its place in the list."""
        return bisect.bisect_right(self.lines[name], cycle, key=lambda change: change[0]) - 1

    def level(self, name, cycle):
        """(value, cycle since which it is so)"""
        since, value = self.lines[name][max(0, self.place(name, cycle))]
        return value, since

    def edge(self, name, value, start):
        """The first cycle from `start` on in which the variable becomes `value`, or None."""
        for at, new in self.lines[name][self.place(name, start - 1) + 1:]:
            if new == value:
                return at
        return None

    def pulse(self, name, value, start):
        """(begin, end) of the first time from `start` on that the variable becomes `value` and leaves it again."""
        changes = self.lines[name]
        for place in range(self.place(name, start - 1) + 1, len(changes) - 1):
            if changes[place][1] == value:
                return changes[place][0], changes[place + 1][0]
        return None


def frame(changes, place, byte):
    """The length of a bit in cycles of the frame of `byte` that begins at a fall, or None where it is not that frame."""
    start = changes[place][0]
    if place + 1 == len(changes) or changes[place + 1][1] != "1":
        return None
    low = 1 + next((n for n in range(8) if byte >> n & 1), 8)  # the start bit and the zeros after it are one low time
    bit = (changes[place + 1][0] - start) / low
    for n in range(10):
        middle = start + (n + 0.5) * bit
        while place + 1 < len(changes) and changes[place + 1][0] <= middle:
            place += 1
        if changes[place][1] != str((byte << 1 | 512) >> n & 1):
            return None
    return bit


def frames(changes, sent):
    """(cycle in which it begins, cycles of a bit) of the frame of each byte that was sent, 8 bits without parity, on the
    line whose changes these are; None where the line does not have exactly these frames."""
    found, free, place = [], 0, 1
    for byte in sent:
        while place < len(changes) and not (changes[place][1] == "0" and changes[place - 1][1] == "1" and changes[place][0] >= free):
            place += 1
        bit = frame(changes, place, byte) if place < len(changes) else None
        if not bit:
            return None
        found.append((changes[place][0], bit))
        free = changes[place][0] + 9.5 * bit
        place += 1
    return found
