"""When the bytes that the Uno sent were sent, read from the wave of its pin 1.

Neither the baud rate nor the format of the frames is told anywhere, but the bytes are. So candidates for the time of a bit are the
commonest gaps between changes, divided by 1 to 9, and each format is tried: from one frame to the next, each must have exactly the
changes of the next byte that was sent. A sketch may change its baud rate and its format. A byte is sent in the last cycle of its
frame. Where the wave fits frames of different lengths, as those with one stop bit and with two if no frame follows another at once,
a shorter run decides: whether it has sent a byte tells the byte's time.
"""
import collections
from typing import NamedTuple

FORMATS = [f"{bits}{parity}{stops}" for bits in (8, 7, 6, 5) for parity in "NEO" for stops in (1, 2)]
LONGEST = 12            # bits of a frame
OTHERS = 64             # falls that may come before the first frame, where pin 1 was used otherwise


class Reading(NamedTuple):
    """Formats by which the wave gives the bytes, and then each byte's last cycle; None for a byte after what is kept."""

    formats: list
    times: list


def bit_times(wave):
    gaps = collections.Counter((b >> 2) - (a >> 2) for a, b in zip(wave[:4000], wave[1:4000]))
    gaps.update((b >> 2) - (a >> 2) for a, b in zip(wave[-4000:], wave[-3999:]))
    return sorted({gap // k for gap, _ in gaps.most_common(8) for k in range(1, 10) if gap % (8 * k) == 0}, reverse=True)


def length_of(form):
    return 1 + int(form[0]) + (form[1] != "N") + int(form[2])


def levels_of(byte, form):
    """The levels of a frame, a bit each; None for a byte that has no room in it."""
    bits, parity, stops = int(form[0]), form[1], int(form[2])
    data = [byte >> k & 1 for k in range(bits)]
    check = [] if parity == "N" else [(sum(data) + (parity == "O")) % 2]
    return None if byte >> bits else [0, *data, *check, *[1] * stops]


def fits(wave, index, bit, levels):
    """Whether the change of that index and those after it are exactly the changes of a frame, up to its end."""
    start, last = wave[index] >> 2, 1
    for k, level in enumerate(levels):
        if level != last:
            if index == len(wave) or wave[index] != start + k * bit << 2 | level:
                return False
            index, last = index + 1, level
    return index == len(wave) or wave[index] >> 2 >= start + len(levels) * bit


def is_fall(wave, index):
    return wave[index] & 3 == 0 and wave[index - 1] & 3 == 1


class Frames(NamedTuple):
    """Frames that were found: their last cycles, the index after them, the cycle in which the next may begin, the bit time of the last,
    and how many falls before the first were no frame."""

    times: list
    index: int
    free: int
    bit: int
    others: int


def frames_from(wave, place, sent, form, bits, until):
    """The frames of `sent` in one format after those of `place`, as far as one comes after another."""
    times, index, after, free, last, others = [], place.index, place.index, place.free, place.bit, 0
    frames, most = {byte: levels_of(byte, form) for byte in set(sent)}, until or wave[-1] << 2
    is_frame = lambda start, bit, levels: start + len(levels) * bit <= most and fits(wave, index, bit, levels)
    while len(times) < len(sent) and index < len(wave) and others <= OTHERS:
        start, levels = wave[index] >> 2, frames[sent[len(times)]]
        if not is_fall(wave, index) or start < free:
            index += 1
            continue
        if levels is None:
            break
        if not (last and is_frame(start, last, levels)):
            bit = next((bit for bit in bits if is_frame(start, bit, levels)), None)
            if bit is None and (times or free):
                break
            if bit is None:
                others, index = others + 1, index + 1
                continue
            last = bit
        index += 1
        after, free = index, start + len(levels) * last
        times.append(free - 1)
    return Frames(times, after, free, last, others)


def readings(wave, sent, until=None):
    """The Readings of bytes, the likeliest first, one for each way in which their times differ; none where the wave does not give
    exactly these bytes. Of a wave that is held up to cycle `until` alone, bytes that end after it have None for their time."""
    place, times, formats, bits = Frames([], 1, 0, 0, 0), [], [], bit_times(wave)
    while len(times) < len(sent):
        tries = {}
        for form in FORMATS:
            if not any(len(found.times) == len(sent) and length_of(other) == length_of(form) for other, found in tries.items()):
                tries[form] = frames_from(wave, place, sent[len(times):], form, bits, until)
        best = max((len(found.times), -found.others) for found in tries.values())
        if best[0] == 0:
            break
        ways = {}
        for form, found in tries.items():
            if (len(found.times), -found.others) == best:
                ways.setdefault(tuple(found.times), []).append(form)
        found = sorted((Reading(forms, list(way)) for way, forms in ways.items()), key=lambda way: -at_once(wave, way.times) if len(ways) > 1 else 0)
        if best[0] == len(sent):
            return found
        place, formats = tries[found[0].formats[0]], [] if times else found[0].formats
        times = times + place.times
    missing = len(sent) - len(times)
    if missing and (until is None or any(is_fall(wave, k) and wave[k] >> 2 >= place.free and (wave[k] >> 2) + LONGEST * (place.bit or max(bits, default=until)) <= until
                                         for k in range(place.index, len(wave)))):
        return []
    return [Reading(formats, times + [None] * missing)]


def at_once(wave, times):
    """After how many of the frames the line falls in the very next cycle: two frames without a pause between them."""
    falls = {edge >> 2 for edge in wave if edge & 3 == 0}
    return sum(time + 1 in falls for time in times)


def decided(found, sent_after):
    """Those of some Readings that a shorter run does not contradict. `sent_after(us)` is how many bytes a run of so many microseconds
    sends, or None where no such run may be made."""
    left = list(found)
    while len(left) > 1:
        one, other = left[:2]
        probe = next(((i, min(a, b) // 16 + 1, a < b) for i, (a, b) in enumerate(zip(one.times, other.times)) if None not in (a, b) and min(a, b) // 16 < max(a, b) // 16), None)
        count = sent_after(probe[1]) if probe else None
        if count is None:
            break
        left.remove(one if (count > probe[0]) != probe[2] else other)
    return left
