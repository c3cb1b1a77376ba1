#!/usr/bin/env python3
"""The chips that stand for parts of Wokwi that show something, on waves made by hand: right ones, and ones that are cut, too slow, too
fast or not meant for them. A page's player calls the modules; tools/look/test_played.py compares that player with the program."""

import base64
import os
import sys
import unittest

HERE = os.path.dirname(os.path.abspath(__file__))
sys.path.insert(0, os.path.join(HERE, "..", "look"))
from engine import EngineMissing, evaluated

PLAY = """{ const out = [];
  for (const { module, display, attrs, waves, at } of given) {
    const pins = Object.keys(waves), names = pins.map(pin => 'it.' + pin), to = 16 + Math.max(...Object.values(waves).map(edges => edges.at(-1)[0])) + 16000000;
    const run = makeRun({ title: 'x', cycles: to, diagram: { parts: [{ type: 'chip-it', id: 'it', attrs }] }, chips: { 'chip-it': pins }, modules: { 'chip-it': { module: bytesOf(module), display } },
      names, of: names.map((_, i) => i), waves: Object.values(waves).map(edges => makeWave(edges.map(it => it[0]), edges.map(it => it[1]))) });
    await playChips(run);
    out.push([[...frameAt(run, run.parts[0], at ?? to).pixels], run.unplayed.map(it => it.text)]);
  }
  return out; }"""


class Wires:
    """Levels of wires over time, in nanoseconds; all are low at first unless said otherwise."""

    def __init__(self, **first: int) -> None:
        self.now = 1000
        self.at: int | None = None  # the cycle at which it is looked at; else a second after the last edge
        self.edges = {pin: [[0, level]] for pin, level in first.items()}

    def set(self, pin: str, level: int, after: int = 0) -> "Wires":
        """A level from now on, and `after` ns later the next one."""
        cycle = round(self.now / 62.5)
        if self.edges[pin][-1][1] != level:
            self.edges[pin].append([cycle, level])
        self.now += after
        return self

    def look(self) -> "Wires":
        """What is shown now is what counts."""
        self.at = round(self.now / 62.5)
        return self

    def wait(self, ns: int) -> "Wires":
        """Nothing changes for so long."""
        self.now += ns
        return self


def shown(chip: str, size: tuple[int, int], *cases: Wires, **attrs: str) -> list[list[tuple[int, ...]]]:
    """The pixels that a chip shows at the end of each case."""
    with open(os.path.join(HERE, "chips", chip + ".wasm"), "rb") as file:
        module = base64.b64encode(file.read()).decode()
    got = evaluated(
        PLAY,
        [{"module": module, "display": size, "attrs": attrs, "waves": case.edges, "at": case.at} for case in cases],
    )
    for _, unplayed in got:
        assert unplayed == [], unplayed
    return [[tuple(pixels[at : at + 4]) for at in range(0, len(pixels), 4)] for pixels, _ in got]


class Servo(unittest.TestCase):
    def pulses(self, *us: int) -> Wires:
        wires = Wires(PWM=0)
        for length in us:
            wires.set("PWM", 1, length * 1000).set("PWM", 0, 20_000_000)
        return wires

    def test_an_angle_is_the_last_pulse_and_no_other_length_moves_it(self) -> None:
        cases = [(1472,), (544,), (2400,), (450,), (2600,), (1472, 300), (1472, 5000), (1472, 20), (399,)]
        angles = [pixels[0][0] for pixels in shown("servo", (1, 1), *(self.pulses(*case) for case in cases))]
        self.assertEqual(angles, [90, 0, 180, 0, 180, 90, 90, 90, 0])

    def test_a_pulse_that_has_no_end_moves_nothing(self) -> None:
        (pixels,) = shown("servo", (1, 1), self.pulses(1000).set("PWM", 1, 1))
        self.assertEqual(pixels[0][1] + 256 * pixels[0][2], 1000)


class Pixels(unittest.TestCase):
    def bits(
        self, wires: Wires, colour: int, count: int = 24, zero: int = 250, one: int = 812, low: int = 437
    ) -> Wires:
        for place in range(count):
            wires.set("DIN", 1, one if colour >> (23 - place) & 1 else zero).set("DIN", 0, low)
        return wires

    def frame(self, *colours: int, wires: Wires | None = None, latch: int = 60_000, **times: int) -> Wires:
        wires = wires or Wires(DIN=0)
        for colour in colours:
            self.bits(wires, colour, **times)
        return wires.wait(latch)

    def test_green_comes_first_and_the_rest_is_passed_on(self) -> None:
        short, exact, long = shown(
            "ws2812", (2, 1), *(self.frame(*(0x102030, 0x405060, 0x708090)[:n]) for n in (1, 2, 3))
        )
        self.assertEqual(exact, [(0x20, 0x10, 0x30, 255), (0x50, 0x40, 0x60, 255)])
        self.assertEqual(long, exact)
        self.assertEqual(short[1], (0, 0, 0, 0), "what is not sent stays dark")

    def test_both_speeds_and_the_edges_of_the_times(self) -> None:
        times = (
            {"zero": 500, "one": 1188, "low": 1312},
            {"zero": 562, "one": 625, "low": 437},
            {"zero": 187, "one": 937, "low": 312},
        )
        for pixels in shown("ws2812", (2, 1), *(self.frame(0x010280, 0xFF00FE, **it) for it in times)):
            self.assertEqual(pixels, [(2, 1, 0x80, 255), (0, 0xFF, 0xFE, 255)])

    def test_a_frame_that_is_cut_harms_no_later_one(self) -> None:
        for cut in (1, 10, 23, 24, 30):
            wires = Wires(DIN=0)
            self.bits(wires, 0xFFFFFF, min(cut, 24))
            self.bits(wires, 0xFFFFFF, max(cut - 24, 0))
            (pixels,) = shown("ws2812", (2, 1), self.frame(0x102030, 0x405060, wires=wires.wait(60_000)))
            self.assertEqual(pixels[0], (0x20, 0x10, 0x30, 255), cut)

    def test_a_pause_that_is_too_long_begins_anew_and_a_short_one_does_not(self) -> None:
        short, long = shown(
            "ws2812",
            (2, 1),
            *(self.frame(0x405060, wires=self.frame(0x102030, latch=pause)) for pause in (20_000, 60_000)),
        )
        self.assertEqual([short[0][:3], short[1][:3]], [(0x20, 0x10, 0x30), (0x50, 0x40, 0x60)])
        self.assertEqual(long[0][:3], (0x50, 0x40, 0x60))

    def test_nothing_is_shown_before_the_pause(self) -> None:
        wires = self.frame(0x405060, 0x405060, wires=self.frame(0x102030, 0x102030), latch=0)
        wires.set("DIN", 1, 1)
        (pixels,) = shown("ws2812", (2, 1), wires)
        self.assertEqual(pixels[0][:3], (0x20, 0x10, 0x30))

    def test_each_second_row_may_go_the_other_way(self) -> None:
        colours = [n << 16 for n in range(1, 7)]
        for attr, order in (("0", [1, 2, 3, 4, 5, 6]), ("1", [1, 2, 3, 6, 5, 4])):
            (pixels,) = shown("ws2812", (3, 2), self.frame(*colours), serpentine=attr)
            self.assertEqual([pixel[1] for pixel in pixels], order)


class Digits(unittest.TestCase):
    """TM1637: two wires, with a begin and an end, and an acknowledge after each byte."""

    def byte(self, wires: Wires, byte: int, count: int = 8, half: int = 5000, acknowledge: bool = True) -> Wires:
        for bit in range(count):
            wires.set("DIO", byte >> bit & 1, half).set("CLK", 1, half).set("CLK", 0, half)
        if acknowledge:
            wires.set("DIO", 0, half).set("CLK", 1, half).set("CLK", 0, half)
        return wires

    def begin(self, wires: Wires, half: int = 5000) -> Wires:
        return wires.set("DIO", 1, half).set("CLK", 1, half).set("DIO", 0, half).set("CLK", 0, half)

    def end(self, wires: Wires, half: int = 5000) -> Wires:
        return wires.set("DIO", 0, half).set("CLK", 1, half).set("DIO", 1, half)

    def sent(self, *groups: tuple[int, ...], half: int = 5000, wires: Wires | None = None) -> Wires:
        wires = wires or Wires(CLK=1, DIO=1)
        for group in groups:
            self.begin(wires, half)
            for byte in group:
                self.byte(wires, byte, half=half)
            self.end(wires, half)
        return wires

    NUMBER = ((0x40,), (0xC0, 0x06, 0x5B, 0x4F, 0x66), (0x8F,))

    def cells(self, *cases: Wires) -> list[tuple[list[int], int]]:
        return [([pixel[0] for pixel in pixels], pixels[0][1]) for pixels in shown("tm1637", (4, 1), *cases)]

    def test_four_digits_and_their_brightness(self) -> None:
        off = self.sent(*self.NUMBER, (0x87,))
        one = self.sent(*self.NUMBER, (0x44,), (0xC2, 0x7F))
        self.assertEqual(
            self.cells(self.sent(*self.NUMBER), off, one),
            [([6, 0x5B, 0x4F, 0x66], 8), ([6, 0x5B, 0x4F, 0x66], 0), ([6, 0x5B, 0x7F, 0x66], 8)],
        )

    def test_it_is_read_at_any_speed(self) -> None:
        for cells, bright in self.cells(*(self.sent(*self.NUMBER, half=half) for half in (250, 500_000))):
            self.assertEqual((cells, bright), ([6, 0x5B, 0x4F, 0x66], 8))

    def test_a_byte_that_is_cut_is_none(self) -> None:
        cut, later = (
            self.end(self.byte(self.begin(self.sent(*self.NUMBER)), 0xFF, 5, acknowledge=False)) for _ in range(2)
        )
        self.assertEqual(
            self.cells(cut, self.sent((0x88,), wires=later)), [([6, 0x5B, 0x4F, 0x66], 8), ([6, 0x5B, 0x4F, 0x66], 1)]
        )

    def test_data_without_a_place_or_beyond_it_is_lost(self) -> None:
        nowhere = self.sent((0x40,), (0xC4, 1, 2, 3, 4, 5), (0x8F,))
        plain = Wires(CLK=1, DIO=1)
        self.byte(plain, 0xC0)
        self.byte(plain, 0x7F)
        self.assertEqual(self.cells(nowhere, plain), [([0, 0, 0, 0], 8), ([0, 0, 0, 0], 0)])


class Matrices(unittest.TestCase):
    """MAX7219: the last 16 bits before CS rises count."""

    def sent(self, *words: tuple[int, int], wires: Wires | None = None, half: int = 500) -> Wires:
        wires = wires or Wires(DIN=0, CS=1, CLK=0)
        for word, bits in words:
            wires.set("CS", 0, half)
            for bit in range(bits - 1, -1, -1):
                wires.set("DIN", word >> bit & 1, half).set("CLK", 1, half).set("CLK", 0, half)
            wires.set("CS", 1, half)
        return wires

    ON = ((0x0C01, 16), (0x0B07, 16), (0x0A0F, 16), (0x0181, 16), (0x0818, 16))

    def lit(self, *cases: Wires, size: tuple[int, int] = (8, 8)) -> list[list[int]]:
        return [[at for at, pixel in enumerate(pixels) if pixel[0]] for pixels in shown("max7219", size, *cases)]

    def test_rows_are_columns_of_a_register(self) -> None:
        self.assertEqual(
            self.lit(self.sent(*self.ON), self.sent(*self.ON, half=63), self.sent(*self.ON[1:])),
            [[0, 7, 59, 60], [0, 7, 59, 60], []],
        )

    def test_too_few_bits_do_nothing_and_of_too_many_the_last_count(self) -> None:
        cut, many = self.sent(*self.ON, (0, 16), (0x02, 4)), self.sent(*self.ON, (0xFF0142, 24))
        self.assertEqual(self.lit(cut, many), [[0, 7, 59, 60], [1, 6, 59, 60]])

    def test_a_chain_passes_the_first_word_on(self) -> None:
        both = [(word << 16 | word, 32) for word, _ in self.ON[:3]]
        self.assertEqual(self.lit(self.sent(*both, (0x0180_0101, 32)), size=(16, 8)), [[7, 8]])

    def test_a_test_lights_all_and_a_limit_some_rows(self) -> None:
        lit, rows = self.lit(self.sent((0x0F01, 16)), self.sent(*self.ON, (0x0B00, 16)))
        self.assertEqual((len(lit), rows), (64, [0, 7]))


class Steppers(unittest.TestCase):
    PHASES = [(0, 1, 1, 0), (1, 0, 1, 0), (1, 0, 0, 1), (0, 1, 0, 1)]  # A-, A+, B+, B-

    def walked(self, *places: int, us: int = 2000) -> Wires:
        wires = Wires(**{pin: 0 for pin in ("A-", "A+", "B+", "B-")})
        for place in places:
            for pin, level in zip(("A-", "A+", "B+", "B-"), self.PHASES[place % 4]):
                wires.set(pin, level, 4000)
            wires.wait(us * 1000)
        return wires

    def half_steps(self, *cases: Wires) -> list[int]:
        return [
            int.from_bytes(bytes(pixels[0][:3]), "little", signed=True) for pixels in shown("stepper", (1, 1), *cases)
        ]

    def test_it_follows_both_ways_and_counts_from_its_first_place(self) -> None:
        self.assertEqual(
            sorted(self.half_steps(self.walked(*range(1, 11)), self.walked(*range(10, 0, -1)), self.walked(3))),
            [-18, 0, 18],
        )

    def test_the_opposite_field_and_none_move_nothing(self) -> None:
        off = self.walked(0, 1)
        for pin in ("A-", "A+", "B+", "B-"):
            off.set(pin, 0, 4000)
        opposite, rests = self.half_steps(self.walked(0, 2), off)
        self.assertEqual((opposite, abs(rests)), (0, 2))

    def test_a_field_that_turns_too_fast_is_not_followed(self) -> None:
        self.assertEqual(self.half_steps(self.walked(*range(40), us=10)), [0])


class Text(unittest.TestCase):
    """HD44780 by its pins, with four of them as data."""

    def half(self, wires: Wires, rs: int, nibble: int, rw: int = 0) -> Wires:
        wires.set("RS", rs).set("RW", rw)
        for bit in range(4):
            wires.set(f"D{4 + bit}", nibble >> bit & 1)
        return wires.wait(1000).set("E", 1, 1000).set("E", 0, 50_000)

    def put(self, wires: Wires, rs: int, byte: int) -> Wires:
        return self.half(self.half(wires, rs, byte >> 4), rs, byte & 15)

    def begun(self, wires: Wires | None = None) -> Wires:
        wires = wires or Wires(**{pin: 0 for pin in ("RS", "RW", "E", *(f"D{n}" for n in range(8)))})
        for nibble in (3, 3, 3, 2):
            self.half(wires, 0, nibble)
        for byte in (0x28, 0x0C, 0x06, 0x01):
            self.put(wires, 0, byte)
        return wires

    def written(self, wires: Wires, text: str) -> Wires:
        for letter in text:
            self.put(wires, 1, ord(letter))
        return wires

    def lines(self, *cases: Wires) -> list[list[str]]:
        return [
            ["".join(chr(pixel[0]) for pixel in pixels[20 * y : 20 * y + 20]).rstrip() for y in range(4)]
            for pixels in shown("hd44780", (20, 5), *cases)
        ]

    def test_a_half_that_is_lost_is_found_by_beginning_again(self) -> None:
        lost = self.half(self.written(self.begun(), "abc"), 1, 6)
        self.assertEqual(
            self.lines(self.written(self.begun(), "abc"), self.written(self.begun(lost), "xyz")),
            [["abc", "", "", ""], ["xyz", "", "", ""]],
        )

    def test_a_read_is_no_write(self) -> None:
        wires = self.begun()
        self.half(self.half(wires, 1, 6, rw=1), 1, 1, rw=1)
        self.assertEqual(self.lines(self.written(wires, "a")), [["a", "", "", ""]])

    def test_lines_places_and_moves(self) -> None:
        """The first and the third line are one of 40 places, which a moved text goes round."""
        wires = self.begun()
        for place, text in ((0x80, "one"), (0xC0, "two"), (0x94, "three"), (0xD4, "four")):
            self.written(self.put(wires, 0, place), text)
        moved = self.written(self.begun(), "moved")
        self.put(moved, 0, 0x18)
        self.assertEqual(self.lines(wires, moved), [["one", "two", "three", "four"], ["oved", "", " " * 19 + "m", ""]])


def needs_an_engine(test: unittest.TestSuite) -> int:
    """Runs all, or says what is missing."""
    try:
        evaluated("1", None)
    except EngineMissing as missing:
        print(f"wokwi, chips on waves: skipped, {missing}", file=sys.stderr)
        return 0
    return not unittest.TextTestRunner().run(test).wasSuccessful()


class Matrix(unittest.TestCase):
    """A bare matrix of LEDs."""

    def wires(self, row: int = 0, **first: int) -> Wires:
        """All rows at one level and all columns at the other: dark, and open where the other way round."""
        sides = {f"R{n}": row for n in range(1, 9)} | {f"C{n}": 1 - row for n in range(1, 9)}
        return Wires(**sides | first).wait(1000)

    def lit(self, *cases: Wires, **attrs: str) -> list[dict[int, int]]:
        """{the LED, row by row from 0: how much it is lit} of each case."""
        found = shown("led-matrix", (8, 8), *cases, **attrs)
        return [{at: pixel[0] for at, pixel in enumerate(pixels) if pixel[0]} for pixels in found]

    def test_rows_in_turn_are_seen_together(self) -> None:
        wires = self.wires()
        for _ in range(6):  # of eight rows of 1.25 ms the third has two LEDs, and the last one for a fifth of its time
            for row in range(1, 9):
                columns = (2, 7) if row == 3 else (4,) if row == 8 else ()
                for column in columns:
                    wires.set(f"C{column}", 0)
                wires.set(f"R{row}", 1, 250_000)
                wires.set("C4", 1, 1_000_000).set(f"R{row}", 0)
                for column in columns:
                    wires.set(f"C{column}", 1)
        self.assertEqual(self.lit(wires.look()), [{17: 31, 22: 31, 59: 6}])

    def test_steady_and_then_dark(self) -> None:
        steady = self.wires(C2=0).set("R3", 1, 30_000_000).look()
        ended = self.wires(C2=0).set("R3", 1, 30_000_000).set("R3", 0, 25_000_000).look()
        again = self.wires(C2=0).set("R3", 1, 5_000_000).set("R3", 0, 60_000_000).set("R4", 1, 30_000_000).look()
        self.assertEqual(self.lit(steady, ended, again), [{17: 255}, {}, {25: 255}])

    def test_the_other_way_round(self) -> None:
        wires = self.wires(row=1).set("R1", 0).set("C1", 1, 30_000_000).look()
        self.assertEqual(self.lit(wires, cathode="1"), [{0: 255}])
        self.assertEqual(len(self.lit(wires)[0]), 49)


class ColourDisplay(unittest.TestCase):
    """An ILI9341, byte by byte on SPI."""

    SIZE = (240, 320)
    START = [(0x11,), (0x3A, 0x55), (0x36, 0x48), (0x29,)]

    def send(self, *commands: tuple[int, ...], cut: int = 0, half: int = 62) -> Wires:
        """Commands with what follows them; of the last byte `cut` bits are not sent."""
        wires = Wires(SCK=0, MOSI=0, CS=1, RST=1, **{"D/C": 1}).wait(10_000)
        wires.set("CS", 0, 500)
        for number, command in enumerate(commands):
            for place, byte in enumerate(command):
                wires.set("D/C", int(place > 0), 200)
                is_last = number == len(commands) - 1 and place == len(command) - 1
                for bit in range(7, cut - 1 if is_last else -1, -1):
                    wires.set("MOSI", byte >> bit & 1, half).set("SCK", 1, half).set("SCK", 0, half)
        return wires.set("CS", 1, 500)

    def box(self, x: int, y: int, wide: int, high: int, *colours: int) -> list[tuple[int, ...]]:
        """A window and its pixels of 16 bits."""

        def ends(first: int, count: int) -> tuple[int, ...]:
            return first >> 8, first & 255, first + count - 1 >> 8, first + count - 1 & 255

        data = [byte for colour in colours for byte in (colour >> 8, colour & 255)]
        return [(0x2A, *ends(x, wide)), (0x2B, *ends(y, high)), (0x2C, *data)]

    def lit(self, *cases: Wires) -> list[dict[tuple[int, int], tuple[int, ...]]]:
        """The pixels that are not black, by their places."""
        return [
            {(at % 240, at // 240): pixel[:3] for at, pixel in enumerate(pixels) if any(pixel[:3])}
            for pixels in shown("ili9341", self.SIZE, *cases)
        ]

    def test_a_window_is_filled_line_by_line_and_begins_again(self) -> None:
        (found,) = self.lit(self.send(*self.START, *self.box(10, 300, 2, 2, 0xF800, 0x07E0, 0x001F, 0xFFFF, 0x8410)))
        self.assertEqual(
            found,
            {
                (10, 300): (132, 130, 132),
                (11, 300): (0, 255, 0),
                (10, 301): (0, 0, 255),
                (11, 301): (255, 255, 255),
            },
        )

    def test_orders_of_rows_columns_and_colours(self) -> None:
        places = {0x48: (3, 5), 0x08: (236, 5), 0xC8: (3, 314), 0x28: (234, 3), 0x68: (5, 3), 0xE8: (5, 316)}
        orders = [self.send(*self.START, (0x36, order), *self.box(3, 5, 1, 1, 0xF800)) for order in places]
        for found, place in zip(self.lit(*orders), places.values()):
            self.assertEqual(found, {place: (255, 0, 0)})
        (turned,) = self.lit(self.send(*self.START, (0x36, 0x40), *self.box(3, 5, 1, 1, 0xF800)))
        self.assertEqual(turned, {(3, 5): (0, 0, 255)})

    def test_eighteen_bits_and_what_is_beyond_the_display(self) -> None:
        wide, beyond = self.lit(
            self.send(*self.START, (0x3A, 0x66), *self.box(0, 0, 1, 1)[:2], (0x2C, 0xFC, 0x83, 0x04)),
            self.send(*self.START, *self.box(239, 319, 3, 3, *[0xFFFF] * 9)),
        )
        self.assertEqual(wide, {(0, 0): (252, 128, 4)})
        self.assertEqual(list(beyond), [(239, 319)])

    def test_it_is_black_while_it_is_off_and_keeps_its_memory(self) -> None:
        drawn = self.box(1, 1, 1, 1, 0xFFFF)
        off, asleep, again, inverse, reset = self.lit(
            self.send(*self.START, *drawn, (0x28,)),
            self.send((0x3A, 0x55), (0x36, 0x48), (0x29,), *drawn),
            self.send(*self.START, *drawn, (0x28,), (0x29,)),
            self.send(*self.START, *drawn, (0x21,)),
            self.send(*self.START, *drawn, (0x01,), (0x11,), (0x29,)),
        )
        self.assertEqual((off, asleep), ({}, {}))
        self.assertEqual(again, {(1, 1): (255, 255, 255)})
        self.assertEqual(len(inverse), 240 * 320 - 1)
        self.assertEqual(reset, again, "what was drawn stays, as in the real one")

    def test_a_byte_that_is_cut_is_none(self) -> None:
        cut, after = self.lit(
            self.send(*self.START, *self.box(1, 1, 1, 1, 0xFFFF), cut=1),
            self.send(*self.START, *self.box(1, 1, 1, 1, 0xFFFF), cut=8),
        )
        self.assertEqual((cut, after), ({}, {}))

    def test_without_a_select_nothing_comes(self) -> None:
        wires = self.send(*self.START, *self.box(1, 1, 1, 1, 0xFFFF))
        wires.edges["CS"] = [[0, 1]]
        self.assertEqual(self.lit(wires), [{}])


if __name__ == "__main__":
    sys.exit(needs_an_engine(unittest.defaultTestLoader.loadTestsFromModule(sys.modules["__main__"])))
