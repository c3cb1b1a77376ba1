"""Waves as an SVG picture that stands still. It has attributes alone and no style, so no policy forbids it."""
import bisect
import html
import math

HIGH, LEFT, RIGHT, TOP = 24, 150, 26, 28
INK, DIM, GRID, WAVE, FILL, FIGHT = "#20262a", "#5b656b", "#dde1de", "#0e7a58", "#c3e6d8", "#c2185b"
CYCLES_A_MICROSECOND = 16


def step_of(span):
    """The microseconds between marks of the axis: 1, 2 or 5 times a power of ten, so that some ten marks fit."""
    for power in range(-2, 9):
        for step in (1, 2, 5):
            if step * 10 ** power * CYCLES_A_MICROSECOND * 10 >= span:
                return step * 10 ** power
    return 10 ** 9


def text_of(us):
    return f"{us:,.4f}".rstrip("0").rstrip(".")


class Scale:
    def __init__(self, start, end, width):
        self.start, self.end, self.width = start, end, width
        self.factor = (width - LEFT - RIGHT) / (end - start)

    def x(self, cycle):
        return LEFT + (cycle - self.start) * self.factor

    def cycle(self, x):
        return self.start + (x - LEFT) / self.factor


def waves_svg(waves, names, start, end, width=960):
    """The waves of `names` from cycle `start` up to `end`."""
    scale, out = Scale(start, end, width), []
    bottom = TOP + HIGH * len(names)
    step = step_of(end - start)
    first = -(-start // (step * CYCLES_A_MICROSECOND))
    for k in range(int(first), int(end / (step * CYCLES_A_MICROSECOND)) + 1):
        x = scale.x(k * step * CYCLES_A_MICROSECOND)
        out.append(f'<path d="M{x:.1f} 20V{bottom}" stroke="{GRID}"/>'
                   f'<text x="{x:.1f}" y="14" text-anchor="middle" fill="{DIM}">{text_of(k * step)}</text>')
    for row, name in enumerate(names):
        out.append(row_svg(waves.waves[waves.of[waves.names.index(name)]], name, TOP + HIGH * row, scale))
    shown = html.escape(", ".join(names))
    return (f'<svg xmlns="http://www.w3.org/2000/svg" viewBox="0 0 {width} {bottom + 8}" width="{width}" height="{bottom + 8}" '
            f'font-family="system-ui, DejaVu Sans, sans-serif" font-size="11.5" role="img">'
            f'<title>Waves of {shown}, in microseconds</title><rect width="{width}" height="{bottom + 8}" fill="#ffffff"/>'
            f'<text x="{LEFT - 34}" y="14" text-anchor="end" fill="{DIM}">µs</text>' + "".join(out) + "</svg>\n")


def row_svg(wave, name, top, scale):
    """A wave as a line; where changes are closer than pixels, a band, with the share of high filled."""
    low, high = top + HIGH - 7, top + 3
    ys = (low, high, (low + high) / 2, (low + high) / 2)
    lines, dashes, fills, fights, bands = [], [], [], [], []

    def flat(level, a, b):
        if level == 1:
            fills.append(f"M{a:.1f} {low:g}V{high:g}H{b:.1f}V{low:g}z")
        if level == 3:
            fights.append(f"M{a:.1f} {low:g}V{high:g}H{max(b, a + 1):.1f}V{low:g}z")
        elif level == 2:
            dashes.append(f"M{a:.1f} {ys[2]:g}H{b:.1f}")
        else:
            lines.append(f"M{a:.1f} {ys[level]:g}H{b:.1f}")

    i = max(bisect.bisect_right(wave, scale.start << 2 | 3) - 1, 0)
    stop, x0 = bisect.bisect_left(wave, scale.end << 2), LEFT
    while i + 1 < stop:
        x = scale.x(wave[i + 1] >> 2)
        column_end = max(math.ceil(scale.cycle(int(x) + 1)), (wave[i + 1] >> 2) + 1)
        until = bisect.bisect_left(wave, column_end << 2, i + 1, stop)
        if x - x0 >= 1:
            flat(wave[i] & 3, x0, x)
        if until - i - 1 < 4:                   # so few that each is drawn, one after another
            until = i + 2
            lines.append(f"M{x:.1f} {ys[wave[i] & 3]:g}V{ys[wave[i + 1] & 3]:g}")
            x0 = x if x - x0 >= 1 else x0
        else:
            share = high_share(wave, wave[i + 1] >> 2, column_end)
            bands.append((int(x), share))
            x0 = min(int(x) + 1, scale.width - RIGHT)
        i = until - 1
    flat(wave[i] & 3, x0, scale.width - RIGHT)
    band, full = band_paths(bands, low, high)
    paths = [("".join(fills), FILL, ""), (band, WAVE, ' fill-opacity=".55"'), (full, WAVE, ""),
             ("".join(fights), FIGHT, ' fill-opacity=".5"')]
    drawn = "".join(f'<path d="{d}" fill="{color}"{more}/>' for d, color, more in paths if d)
    if lines:
        drawn += f'<path d="{"".join(lines)}" fill="none" stroke="{WAVE}" stroke-width="1.3"/>'
    if dashes:
        drawn += f'<path d="{"".join(dashes)}" fill="none" stroke="#87908f" stroke-width="1.3" stroke-dasharray="3 3"/>'
    return f'<text x="{LEFT - 10}" y="{low}" text-anchor="end" fill="{INK}">{html.escape(name)}</text>{drawn}'


def band_paths(bands, low, high):
    """Columns of a pixel as two paths: their whole height, and of each the share of high; neighbours are one figure."""
    whole, shares, k = [], [], 0
    while k < len(bands):
        last = k
        while last + 1 < len(bands) and bands[last + 1][0] == bands[last][0] + 1:
            last += 1
        x = bands[k][0]
        whole.append(f"M{x} {low:g}V{high:g}h{last + 1 - k}V{low:g}z")
        shares.append(f"M{x} {low:g}" + "".join(f"V{low - round(share * (low - high)):g}h1" for _, share in bands[k:last + 1]) + f"V{low:g}z")
        k = last + 1
    return "".join(whole), "".join(shares)


def high_share(wave, start, end):
    i, high, cycle = bisect.bisect_right(wave, start << 2 | 3) - 1, 0, start
    while cycle < end:
        until = min(wave[i + 1] >> 2, end) if i + 1 < len(wave) else end
        high += until - cycle if wave[i] & 3 == 1 else 0
        cycle, i = until, i + 1
    return high / (end - start)
