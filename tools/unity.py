#!/usr/bin/env python3
"""Reads what unit tests print in Unity's form:  .. | tools/unity.py [--junit FILE]

Shows the lines as they come and ends with 0 where tests were run and none failed, and with 1 where one failed or the
last line with the counts did not come, since then the firmware did not get there."""
import re
import sys
from xml.sax.saxutils import quoteattr

TEST = re.compile(r"(?P<file>[^:\s][^:]*):(?P<line>[0-9]+):(?P<name>[^:]+):(?P<how>PASS|FAIL|IGNORE)(?::\s*(?P<why>.*))?")
COUNTS = re.compile(r"([0-9]+) Tests ([0-9]+) Failures ([0-9]+) Ignored")


def read(lines):
    """(the tests as matches of TEST, the counts as (tests, failures, ignored) or None)"""
    tests, counts = [], None
    for line in lines:
        test, count = TEST.fullmatch(line.strip()), COUNTS.match(line.strip())
        if test:
            tests.append(test)
        elif count:
            counts = tuple(map(int, count.groups()))
    return tests, counts


def passed(tests, counts):
    return bool(counts and counts[0] and not counts[1] and not any(test["how"] == "FAIL" for test in tests))


def junit(tests, counts):
    clean = lambda text: re.sub(r"[^\t\n\x20-\x7e]", "?", text or "")
    rows = ['<?xml version="1.0" encoding="UTF-8"?>', f'<testsuite name="unity" tests="{len(tests)}" failures="{sum(test["how"] == "FAIL" for test in tests)}">']
    for test in tests:
        inside = {"FAIL": f'<failure message={quoteattr(clean(test["why"]))}/>', "IGNORE": "<skipped/>", "PASS": ""}[test["how"]]
        rows.append(f'<testcase classname={quoteattr(clean(test["file"]))} name={quoteattr(clean(test["name"]))}>{inside}</testcase>')
    if counts is None:
        rows.append('<testcase classname="unity" name="the end"><failure message="the line with the counts did not come"/></testcase>')
    return "\n".join([*rows, "</testsuite>", ""])


def main(words):
    if words and (len(words) != 2 or words[0] != "--junit"):
        print(__doc__, file=sys.stderr)
        return 2
    lines = []
    for raw in sys.stdin.buffer:
        lines.append(raw.decode("utf-8", "replace").rstrip("\r\n"))
        print(lines[-1], flush=True)
    tests, counts = read(lines)
    if words:
        with open(words[1], "w", encoding="utf-8") as file:
            file.write(junit(tests, counts))
    if counts is None:
        print("unity: the line with the counts did not come: give the run more time", file=sys.stderr)
    return 0 if passed(tests, counts) else 1


if __name__ == "__main__":
    try:
        sys.exit(main(sys.argv[1:]))
    except KeyboardInterrupt:
        sys.exit(130)
