"""What a wave does not hold, from the reports of shorter runs: when a line of the report first came."""
import re

from program import Refused

CYCLES_A_MICROSECOND = 16
ONCE = re.compile(r"uno \S+ (pc \S+ halt|ignored) ")            # lines that come and then stay


def first_times(report, us, runs):
    """{line: the cycle by which a shorter run first had it}, to a microsecond, as far as there are runs left."""
    firsts = {}
    for line in report.split("\n"):
        if not ONCE.match(line):
            continue
        low, high = 0, us                       # not there after `low`, there after `high`
        while low + 1 < high:
            middle = (low + high) // 2
            shorter = report_of(runs, middle)
            if shorter is None:
                break
            low, high = (low, middle) if line in shorter else (middle, high)
        if low + 1 == high:
            firsts[line] = low * CYCLES_A_MICROSECOND
    return firsts


def report_of(runs, us):
    try:
        text = runs.report(us)
    except Refused:
        return None
    return None if text is None else text.split("\n")
