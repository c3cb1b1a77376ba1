#!/usr/bin/env python3
"""Works out the rows of timers that rows_units plays, from the text of the ATmega328P data sheet and not from the
definitions: a PWM mode is a list of counts that is gone through again and again, as the timing diagrams draw it.
`make.py` prints them; `make.py --write` writes them to crates/rows_units/data/timers.rows."""
import os, sys

UP, DOWN = False, True

def ramp(top):            # single slope
    return [(c, UP) for c in range(top + 1)]

def slopes(top):          # dual slope: up to TOP, at which it turns, and down to BOTTOM
    return [(c, UP) for c in range(top)] + [(c, DOWN) for c in range(top, 0, -1)] if top else [(0, DOWN)]

def mode8(n):             # "Waveform Generation Mode Bit Description"
    return {0: ("normal", 0xFF), 1: ("phase", 0xFF), 2: ("ctc", "OCRA"), 3: ("fast", 0xFF), 4: ("normal", 0xFF),
            5: ("phase", "OCRA"), 6: ("normal", 0xFF), 7: ("fast", "OCRA")}[n]

def mode16(n):
    return [("normal", 0xFFFF), ("phase", 0xFF), ("phase", 0x1FF), ("phase", 0x3FF), ("ctc", "OCRA"), ("fast", 0xFF),
            ("fast", 0x1FF), ("fast", 0x3FF), ("frequency", "ICR"), ("frequency", "OCRA"), ("phase", "ICR"),
            ("phase", "OCRA"), ("ctc", "ICR"), ("normal", 0xFFFF), ("fast", "ICR"), ("fast", "OCRA")][n]

def counts(kind, top, most, start):
    """The counts of the ticks, from a count that was written; the counter goes up at first."""
    if kind in ("normal", "ctc", "fast"):
        end = top if start <= top else most      # a count above TOP is met by no match
        for c in range(start, end + 1):
            yield c, UP
        while True:
            yield from ramp(most if kind == "normal" else top)
    if start > top:
        for c in range(start, 0, -1):
            yield c, DOWN
        start = 0
    first = True
    while True:
        for c, way in slopes(top):
            if first and c < start:
                continue
            first = False
            yield c, way

def pin(kind, com, c, way, match, top, level):
    if kind in ("normal", "ctc"):
        if match:
            return {0: level, 1: not level, 2: False, 3: True}[com]
    elif kind == "fast":                          # cleared on a match, set with the return to BOTTOM
        inverted = com == 3
        if com in (2, 3):
            if c == top:
                return not inverted
            if match:
                return inverted
    elif com in (2, 3) and match:                 # cleared when counting up, set when counting down
        return (way == DOWN) != (com == 3)
    return level

class Timer:
    """The registers and pins of a timer, by their addresses."""
    def __init__(self, name, size, tifr, tccra, tcnt, icr, ocra, ocrb, pins):
        self.name, self.size, self.tifr, self.tccra, self.tccrb = name, size, tifr, tccra, tccra + 1
        self.tcnt, self.icr, self.ocr, self.pins = tcnt, icr, (ocra, ocrb), pins

    def put(self, reg, value):
        """16-bit registers are written high byte first."""
        if self.size == 8 or reg in (self.tccra, self.tccrb):
            return [f"{reg:02X}={value:02X}"]
        return [f"{reg + 1:02X}={value >> 8:02X}", f"{reg:02X}={value & 0xFF:02X}"]

    def count(self, value):
        """16-bit registers are read low byte first."""
        if self.size == 8:
            return [f"{self.tcnt:02X}?{value:02X}"]
        return [f"{self.tcnt:02X}?{value & 0xFF:02X}", f"{self.tcnt + 1:02X}?{value >> 8:02X}"]

    def begins(self, coms, wgm, clock, start=None, icr=None, ocr=None, later=None):
        """The writes that set a mode, the one of the clock last; `later` is an OCRB that is written while the mode stands."""
        words = self.put(self.tcnt, start) if start is not None else []
        words += self.put(self.icr, icr) if icr is not None else []
        for reg, value in zip(self.ocr, ocr):
            words += self.put(reg, value)
        words += self.put(self.tccra, 64 * coms[0] + 16 * coms[1] + wgm % 4)
        if later is not None:
            words += self.put(self.tccrb, 8 * (wgm // 4)) + self.put(self.ocr[1], later)
        return words + self.put(self.tccrb, 8 * (wgm // 4) + clock)

    def event(self, cycle, count, flags, outputs):
        """An event: the count after it, the flags, which are cleared, and what the compare outputs show, `-` nothing."""
        words = [f"next={cycle}", *self.count(count), f"{self.tifr:02X}?{flags:02X}", f"{self.tifr:02X}={flags:02X}"]
        for pin, level in zip(self.pins, outputs):
            # with PORT clear and set: a value that the timer gives does not depend on it
            words += {"-": [f"drive{pin}.out=L", f"drive{pin}.set=H"], "0": [f"drive{pin}.set=L"], "1": [f"drive{pin}.out=H"]}[level]
        return words

ZERO = Timer("timer0", 8, 0x35, 0x44, 0x46, None, 0x47, 0x48, (6, 5))
ONE = Timer("timer1", 16, 0x36, 0x80, 0x84, 0x86, 0x88, 0x8A, (9, 10))
TWO = Timer("timer2", 8, 0x37, 0xB0, 0xB2, None, 0xB3, 0xB4, (11, 3))

def events(timer, kind, top, coms, start, icr, ocr, divisor, last, later=None):
    """Up to 14 events; where the last cycle comes first, the one behind it too, without what it leaves."""
    most = 0xFF if timer.size == 8 else 0xFFFF
    active, written = list(ocr), list(later or ocr)   # ocr written while the timer stood in normal mode, later in this one
    if kind in ("normal", "ctc"):
        active = list(written)
    limit = active[0] if top == "OCRA" else icr if top == "ICR" else top
    level, words, found, tick = [False, False], [], 0, 0
    run = counts(kind, limit, most, start)
    c, way = next(run)
    while True:
        tick += 1
        cycle = tick * divisor
        after, next_way = next(run)
        flags = 0
        for ch in (0, 1):
            match = c == active[ch]
            flags |= match << (1 + ch)
            level[ch] = pin(kind, coms[ch], c, way, match, limit, level[ch])
        if top == "ICR" and c == icr:
            flags |= 0x20
        overflow = {"normal": c == most, "ctc": c == most, "fast": c == limit}.get(kind, c == 0)
        flags |= overflow
        load = {"normal": False, "ctc": False, "fast": c == limit, "phase": c >= limit, "frequency": c == 0}[kind]
        if load:
            active = list(written)
        if flags or load:
            if cycle > last:
                return words + [f"next={cycle}"]
            outputs = ["-" if com == 0 or com == 1 and kind not in ("normal", "ctc") else "01"[level[ch]]
                       for ch, com in enumerate(coms)]
            words += timer.event(cycle, after, flags, outputs)
            found += 1
            if found == 14:
                return words
        c, way = after, next_way

BYTES = [(0, 0, 255), (0, 1, 254), (0, 254, 1), (0, 255, 0), (0, 4, 0), (0, 4, 1), (0, 4, 3), (0, 4, 4), (0, 4, 5),
         (0, 0, 0), (0, 1, 1), (254, 4, 1)]
WORDS = [(0, 4, 0, 5), (0, 4, 1, 4), (0, 4, 3, 3), (0, 4, 4, 1), (0, 4, 5, 0), (0, 0, 0, 0), (0, 1, 1, 1),
         (0, 4, 0x00FE, 0x00FF), (0, 4, 0x00FF, 0x0100), (0, 4, 0x01FE, 0x01FF), (0, 4, 0x01FF, 0x0200),
         (0, 4, 0x03FE, 0x03FF), (0, 4, 0x03FF, 0x0400), (0, 4, 0xFFFE, 0xFFFF), (0, 4, 0xFFFF, 0x0000),
         (0xFFFE, 4, 4, 1), (0x0400, 4, 4, 1)]
COMS = [(2, 3), (1, 1)]

def row(timer, *words):
    return " ".join([f"{timer.name}:", *words])

def rows():
    yield "# A row: a timer, and what is done with a new one and what it answers; crates/rows_units/src/unit.rt lists the words."
    yield "# tools/timers/make.py works these out from the data sheet's text: up to 14 events, with the count, the flags and the"
    yield "# compare outputs behind each."
    yield "# timer 0 in every mode"
    for wgm in range(8):
        for coms in COMS:
            for count, a, b in BYTES:
                kind, top = mode8(wgm)
                yield row(ZERO, *ZERO.begins(coms, wgm, 1, count, None, (a, b)),
                          *events(ZERO, kind, top, coms, count, 0, (a, b), 1, 1030))
    yield "# timer 2 in every mode, its clock divided by 32"
    for wgm in range(8):
        kind, top = mode8(wgm)
        yield row(TWO, *TWO.begins((2, 3), wgm, 3, None, None, (4, 3)),
                  *events(TWO, kind, top, (2, 3), 0, 0, (4, 3), 32, 32 * 1030))
    yield "# timer 1 in every mode"
    for wgm in range(16):
        for coms in COMS:
            for count, icr, a, b in WORDS:
                kind, top = mode16(wgm)
                yield row(ONE, *ONE.begins(coms, wgm, 1, count, icr, (a, b)),
                          *events(ONE, kind, top, coms, count, icr, (a, b), 1, 131200))
    yield "# OCR values that are written while a mode stands: when each becomes active"
    for wgm in range(8):
        kind, top = mode8(wgm)
        yield row(ZERO, *ZERO.begins((2, 3), wgm, 1, None, None, (4, 1), 3),
                  *events(ZERO, kind, top, (2, 3), 0, 0, (4, 1), 1, 1030, (4, 3)))
    for wgm in range(16):
        kind, top = mode16(wgm)
        yield row(ONE, *ONE.begins((2, 3), wgm, 1, None, 6, (4, 1), 3),
                  *events(ONE, kind, top, (2, 3), 0, 6, (4, 1), 1, 131200, (4, 3)))
    # worked out by hand: TOP 4 until it is met, and 2 from then on; phase correct PWM comes down by way of 3, above TOP
    yield "# TOP 4, then 2, in fast PWM and in phase correct PWM"
    for wgm, seen in ((7, "5:0/3/10 8:0/3/10 11:0/3/10 14:0/3/10 17:0/3/10"),
                      (5, "1:1/1/00 5:3/2/10 6:2/0/10 7:1/2/10 9:1/1/10 11:1/2/10 13:1/1/10 15:1/2/10")):
        words = ["47=04", "48=09", f"44=B{wgm % 4}", "45=08", "47=02", "45=09"]
        for event in seen.split():
            cycle, rest = event.split(":")
            count, flags, outputs = rest.split("/")
            words += ZERO.event(int(cycle), int(count, 16), int(flags), outputs)
        yield row(ZERO, *words)
    yield "# phase correct PWM up to 3 and back, the flags of the first event cleared"
    yield "timer0: 47=03 44=01 45=09 next=1 35?05 46?01 35=07 next=4 35?02 46?02 35=00 next=7 35?07 46?01"
    # worked out by hand: a tick in each multiple of the divisor after the last reset, writes one cycle after an event
    yield "# prescalers: with TOP 0 each tick is an event; divided by 8, by 64, reset, that of timer 2 reset, by 1, TCNT written"
    yield ("timer0: 44=02 45=02 next=8 next=16 45=03 next=64 next=128 43=01 next=193 next=257 43=02 next=321 45=01 next=322 next=323 "
           "46=00 next=325 next=326 45=04 next=385 next=641 45=05 next=1153 next=2177 45=06 next=none 45=07 next=none 45=00 next=none")
    yield ("timer2: B0=02 B1=00 next=none B1=01 next=1 next=2 B1=02 next=8 next=16 B1=03 next=32 next=64 B1=04 next=128 next=192 "
           "B1=05 next=256 next=384 B1=06 next=512 next=768 B1=07 next=1024 next=2048 B1=03 43=02 next=2081 next=2113 43=01 "
           "next=2145 next=2177")
    # "Register Summary": flags are cleared by 1, PSRASY and PSRSYNC read 0, all else reads as it was written
    yield "# every register: whether a write may move a pin, and what is read behind a write of FF; there is no other"
    for timer, kept in ((ZERO, "35=F8 43=FC 44=FF* 45=FF* 46=FF 47=FF 48=FF 6E=FF"),
                        (ONE, "36=D8 43=FC 6F=FF 80=FF* 81=FF* 84=FF 85=FF 86=FF 87=FF 88=FF 89=FF 8A=FF 8B=FF"),
                        (TWO, "37=F8 43=FC 70=FF B0=FF* B1=FF* B2=FF B3=FF B4=FF")):
        words, left = [], set(range(256))
        for reg, value in (it.split("=") for it in kept.split()):
            words += [f"{reg}.FF?" + ("moves" if value[2:] else "stays"), f"{reg}=FF", f"{reg}?{value[:2]}"]
            left.remove(int(reg, 16))
        yield row(timer, *words, *(f"{reg:02X}?none" for reg in sorted(left)))
    yield '# "Accessing 16-bit Registers": bytes written high before low, read low before high, by way of TEMP'
    yield "timer1: 85=12 84=34 84?34 85?12 89=56 88=78 85?56 88?78 89?56 85?56 87=9A 86=BC 84?34 87?12 86?BC 85?9A 8A=11 8A?11 8B?9A"
    yield "# requests: the flags, the vector, what is requested once it is entered, the flags behind SBI"
    yield ("timer0: 47=03 44=01 45=09 6E=07 next=1 35?05 asks=15 enters=15 asks=16 35.0=1 35?00 deaf next=4 35?02 asks=14 enters=14 "
           "asks=none 35.1=1 35?00 deaf next=7 35?05 asks=15 enters=15 asks=16 35.2=1 35?01 deaf")
    yield "timer1: 87=00 86=01 80=00 81=19 6F=27 next=1 36?06 asks=11 enters=11 36?04 next=2 36?24 asks=10 enters=10 36?04"
    yield "# by 1,024, with OCR values of FFFF; cycle by cycle there would be no time for so many"
    yield "10000 timer1: 89=FF 88=FF 8B=FF 8A=FF 81=05 next=67108864 36?07 84?00"

text = "".join(line + "\n" for line in rows())
if sys.argv[1:] == ["--write"]:
    with open(os.path.join(os.path.dirname(os.path.abspath(__file__)), "../../crates/rows_units/data/timers.rows"), "w") as out:
        out.write(text)
else:
    sys.stdout.write(text)
