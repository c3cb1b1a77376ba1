"""Reads the wave of a run (docs/WAVE.md): which waves there are, and which variable has which.

A wave is an array of `cycle << 2 | level` in rising order, with 0 low, 1 high, 2 z, 3 x. Equal waves are kept once.
"""
import bisect
import hashlib
from array import array
from typing import NamedTuple

UNITS_A_CYCLE = 625
LEVELS = (b"0", b"1", b"z", b"x")
PIECE = 1 << 22


class Waves(NamedTuple):
    names: list         # of the variables, in the order of their declarations
    of: list            # for each name the index of its wave
    waves: list         # the different waves
    end: int            # the cycle up to which they are held


def level_at(wave, cycle):
    return wave[bisect.bisect_right(wave, cycle << 2 | 3) - 1] & 3


def read_declarations(stream):
    """The (identifier code, name) of each variable, up to the line that ends the declarations."""
    declared = []
    for line in stream:
        if line.startswith(b"$var"):
            declared.append((line.split()[3], line.split()[4].decode("ascii", "replace")))
        if line.startswith(b"$enddefinitions"):
            break
    return declared


class Changes:
    """The cycles at which each set of changes happened, by its lines as they are written; so a time costs one append, however
    many pins change in it. `first` has for a code the (cycle, level) from which on its changes are kept."""

    def __init__(self):
        self.at, self.times, self.first = {}, 0, {}

    def take(self, pieces):
        """Times with the lines after them; returns the last cycle."""
        at, cycle = self.at, 0
        for piece in pieces:
            when, _, lines = piece.partition(b"\n")
            cycle = int(when or 0) // UNITS_A_CYCLE
            try:
                at[lines].append(cycle)
            except KeyError:
                at[lines] = array("I", (cycle,))
        self.times += len(pieces)
        return cycle

    def forget_before(self, cycle, codes):
        """Keeps of what happened to `codes` up to `cycle` the level alone; it has come up to there."""
        at, self.at = self.at, {}
        for lines, times in at.items():
            split = bisect.bisect_right(times, cycle)
            if times[split:]:
                self.keep(lines, times[split:])
            if not split:
                continue
            kept = []
            for line in lines.split(b"\n"):
                if line[1:] not in codes:
                    kept.append(line)
                elif times[split - 1] >= self.first.get(line[1:], (0, 0))[0]:
                    self.first[line[1:]] = (times[split - 1], LEVELS.index(line[:1]))
            if kept:
                self.keep(b"\n".join(kept), times[:split])
        self.first = {code: (cycle, level) for code, (_, level) in self.first.items()}
        self.times = sum(map(len, self.at.values()))

    def keep(self, lines, times):
        if lines in self.at:
            self.at[lines].extend(times)
        else:
            self.at[lines] = times

    def waves(self):
        """{code: its wave}"""
        waves = {code: [cycle << 2 | level] for code, (cycle, level) in self.first.items()}
        for lines, times in self.at.items():
            for line in lines.split(b"\n"):
                level = LEVELS.index(line[:1]) if line[:1] in LEVELS else None
                if level is not None:
                    waves.setdefault(line[1:], []).extend([cycle << 2 | level for cycle in times])
        for wave in waves.values():
            wave.sort()                         # a few runs that are in order already, which it merges
        return {code: array("I", wave) for code, wave in waves.items()}


def read_wave(stream, most, start=0, end=None, whole=None):
    """The waves of cycles start..end, at most `most` changes; names for which `whole` is true are kept from cycle 0 on.

    The stream is read to its end in any case, so that who writes it is never stopped. Returns Waves and the cycle at which
    the wave was cut, None where it was not.
    """
    declared = read_declarations(stream)
    prunable = {code for code, name in declared if not whole or not whole(name)}
    changes, rest, full, now = Changes(), b"\n", False, 0
    while True:
        more = stream.read(PIECE)
        if full:
            if not more:
                break
            continue
        pieces = (rest + more).split(b"\n#")    # a code may be `#` too, but no change begins with it
        rest = b"\n#" + pieces.pop()
        if not more:                            # the end's time stands alone: nothing changes there
            break
        if pieces:
            now = changes.take(pieces)
        if start and now <= start:
            changes.forget_before(now, prunable)
        full = changes.times > most or (end is not None and now > end)
    if start:
        changes.forget_before(start, prunable)
    return collected(declared, changes, most, end, full and (end is None or now <= end))


def collected(declared, changes, most, end, stopped):
    of, waves, known, last, found = [], [], {}, 0, changes.waves()
    for code, _ in declared:
        wave = found.get(code) or array("I", (2,))
        if end is not None:
            wave = wave[:bisect.bisect_left(wave, end << 2)] or wave[:1]
        key = hashlib.sha256(wave.tobytes()).digest()
        if key not in known:
            known[key] = len(waves)
            waves.append(wave)
            last = max(last, wave[-1] >> 2)
        of.append(known[key])
    cut = None
    if stopped or sum(map(len, waves)) > most:
        cut = cut_at(waves, most, last)
        waves = [wave[:max(1, bisect.bisect_right(wave, cut << 2 | 3))] for wave in waves]
    return Waves([name for _, name in declared], of, waves, last), cut


def cut_at(waves, most, last):
    """The last cycle up to which the waves have at most `most` changes together."""
    total = lambda cycle: sum(bisect.bisect_right(wave, cycle << 2 | 3) for wave in waves)
    low, high = 0, last + 1
    while low + 1 < high:
        middle = (low + high) // 2
        low, high = (middle, high) if total(middle) <= most else (low, middle)
    return max(low, 1)


def moved_names(waves):
    """One name for each wave that is not constant, in the order of declaration."""
    known, names = set(), []
    for name, index in zip(waves.names, waves.of):
        if len(waves.waves[index]) > 1 and index not in known and not name.endswith((".out", ".pull")):
            known.add(index)
            names.append(name)
    return names
