#!/usr/bin/env python3
"""Draws the picture of an OLED, or of a chip's display, from a report.

    tools/display.py REPORT ID               as text, two dots one above the other in each character
    tools/display.py REPORT ID --svg FILE    as SVG, `-` for standard output

REPORT is a file that `run --report` wrote, or `-` for standard input; ID is the part's id in diagram.json. Ends with 0, with 2
where the words are wrong, and with 1, saying why on standard error, where the report has no such display or cannot be read.
"""
import argparse
import itertools
import re
import sys

PAGES = 8
COLUMNS = 128
HALVES = " ▀▄█"
LIT = "#cfe8ff"


class NoDisplay(Exception):
    pass


def oled_dots(lines, name):
    """The rows of an OLED, from the top: for each of its columns whether the dot is lit."""
    pages = {}
    is_there = False
    for line in lines:
        words = line.split(" ")
        if words[:2] != ["oled", name]:
            continue
        is_there = True
        if len(words) == 5 and words[2] == "page":
            if not re.fullmatch(r"[0-7]", words[3]) or not re.fullmatch(r"[0-9A-F]{%d}" % (2 * COLUMNS), words[4]):
                raise NoDisplay(f"this line is not of the form `oled ID page P HH..`: {line[:60]}")
            pages[int(words[3])] = bytes.fromhex(words[4])
    if not is_there:
        raise NoDisplay(f"the report has no display {name!r}")
    lacking = [page for page in range(PAGES) if page not in pages]
    if lacking:
        raise NoDisplay(f"the report ends before page {lacking[0]} of {name!r}")
    return [[bool(pages[row // 8][column] >> row % 8 & 1) for column in range(COLUMNS)] for row in range(8 * PAGES)]


def chip_dots(lines, name):
    """The rows of a chip's display, from the top down to the last that is in the report: for each pixel its color, the first three of
    its bytes, as #RRGGBB, or False where it is black."""
    rows = {}
    for line in lines:
        words = line.split(" ")
        if words[:2] != ["chip", name] or words[2:3] != ["row"]:
            continue
        if len(words) != 5 or not re.fullmatch(r"\d{1,5}", words[3]) or not re.fullmatch(r"([0-9A-F]{8})+", words[4]):
            raise NoDisplay(f"this line is not of the form `chip ID row Y HH..`: {line[:60]}")
        pixels = bytes.fromhex(words[4])
        colors = [pixels[at : at + 3] for at in range(0, len(pixels), 4)]
        rows[int(words[3])] = [any(color) and "#" + color.hex() for color in colors]
    if not rows:
        raise NoDisplay(f"the report has no display {name!r} on which something is drawn")
    width = max(map(len, rows.values()))
    return [rows.get(y, [False] * width) for y in range(max(rows) + 1)]


def dots_of(lines, name):
    is_chip = any(line.startswith(f"chip {name} ") for line in lines)
    return chip_dots(lines, name) if is_chip else oled_dots(lines, name)


def as_text(dots):
    """Half as many lines as there are rows."""
    lines = []
    if len(dots) % 2:
        dots = [*dots, [False] * len(dots[0])]
    for upper, lower in zip(dots[::2], dots[1::2]):
        lines.append("".join(HALVES[bool(above) + 2 * bool(below)] for above, below in zip(upper, lower)).rstrip())
    return "\n".join(lines) + "\n"


def runs(row):
    """The stretches of a row that are lit in one color: where each begins, how long it is, and its color."""
    column = 0
    for dot, alike in itertools.groupby(row):
        count = len(list(alike))
        if dot:
            yield column, count, LIT if dot is True else dot
        column += count


def as_svg(dots, title):
    """The lit dots on a dark ground, one path for each color, four units a dot."""
    height, width = len(dots), len(dots[0])
    paths = {}
    for y, row in enumerate(dots):
        for x, n, color in runs(row):
            paths[color] = paths.get(color, "") + f"M{x} {y}h{n}v1h-{n}z"
    drawn = "".join(f'<path d="{path}" fill="{color}"/>' for color, path in (paths or {LIT: ""}).items())
    escaped = title.replace("&", "&amp;").replace("<", "&lt;")
    return (
        f'<svg xmlns="http://www.w3.org/2000/svg" viewBox="0 0 {width} {height}" width="{4 * width}" height="{4 * height}" '
        f'role="img" shape-rendering="crispEdges"><title>{escaped}</title>'
        f'<rect width="{width}" height="{height}" fill="#0b0f14"/>{drawn}</svg>\n'
    )


def read_lines(name):
    if name == "-":
        return sys.stdin.read().split("\n")
    with open(name, encoding="ascii", errors="replace") as file:
        return file.read().split("\n")


def main(words):
    parser = argparse.ArgumentParser(description="Draws the picture of a display from a report.")
    parser.add_argument("report", help="a file that `run --report` wrote, or - for standard input")
    parser.add_argument("id", help="the part's id in diagram.json")
    parser.add_argument("--svg", metavar="FILE", help="writes the picture as SVG, - for standard output")
    asked = parser.parse_args(words)
    try:
        dots = dots_of(read_lines(asked.report), asked.id)
        if asked.svg is None:
            sys.stdout.write(as_text(dots))
        elif asked.svg == "-":
            sys.stdout.write(as_svg(dots, asked.id))
        else:
            with open(asked.svg, "w", encoding="utf-8") as file:
                file.write(as_svg(dots, asked.id))
    except (NoDisplay, OSError) as error:
        print(f"display.py: {error}", file=sys.stderr)
        return 1
    return 0


if __name__ == "__main__":
    sys.exit(main(sys.argv[1:]))
