#!/usr/bin/env python3
"""Looks whether each link of the pages leads to a file of the repository, and to a heading of it where it names one.
Says each that does not, and then ends with 1.

  links.py [FOLDER]     the pages of another repository
"""
import pathlib
import re
import sys

TOP = pathlib.Path(__file__).resolve().parents[2]
LINK = re.compile(r"\[[^\]]*\]\(([^)\s]+)\)")
MADE = {".git", "target", "out", "build"}


def plain(text):
    """The text without what is shown as code."""
    text = re.sub(r"^```.*?^```", "", text, flags=re.S | re.M)
    return re.sub(r"`[^`\n]*`", "", text)


def anchors(text):
    """What a link may name after `#`: each heading in small letters, with `-` for blanks and without other signs."""
    heads = re.findall(r"^#+ +(.*)$", re.sub(r"^```.*?^```", "", text, flags=re.S | re.M), flags=re.M)
    words = (re.sub(r"\[([^\]]*)\]\([^)]*\)", r"\1", head).strip().lower() for head in heads)
    return {re.sub(r"[^\w\- ]", "", head).replace(" ", "-") for head in words}


def faults(top):
    """(how many links there are, a line for each that leads nowhere)"""
    found, bad = 0, []
    for page in sorted(top.rglob("*.md")):
        if MADE & set(page.relative_to(top).parts):
            continue
        for link in LINK.findall(plain(page.read_text())):
            if re.match(r"\w+:", link):
                continue
            found += 1
            name, _, anchor = link.partition("#")
            to = page.parent / name if name else page
            if not to.exists():
                bad.append(f"{page.relative_to(top)}: there is no {link}")
            elif anchor and (to.suffix != ".md" or anchor not in anchors(to.read_text())):
                bad.append(f"{page.relative_to(top)}: there is no heading {link}")
    return found, bad


def main(words):
    found, bad = faults(pathlib.Path(words[0]).resolve() if words else TOP)
    for line in bad:
        print(line, file=sys.stderr)
    print(f"{found} links of pages, {len(bad)} that lead nowhere")
    return bool(bad) or not found


if __name__ == "__main__":
    sys.exit(main(sys.argv[1:]))
