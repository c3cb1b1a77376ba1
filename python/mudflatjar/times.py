"""Times: cycles of the Uno's 16 MHz clock, and what people write for them."""
from __future__ import annotations

import re

CYCLES_PER_US = 16
LAST = 10_000_000_000_000
"""The cycle at which a board's time ends: 625,000 s, or 7.2 days."""
SCRIPT_LAST = 160_000_000
"""The last cycle that a line of a script, and a run that is no live board, may name: 10 s."""
SCRIPT_MOST = 4_096
"""The most lines of a script."""
UNITS = {"ns": 0.016, "us": 16, "ms": 16_000, "s": 16_000_000, "cy": 1}


def cycles_of(text: str) -> int:
    """The cycles of a time as `200ms`, `1.5s`, `30us`, `40cy`; a number alone is microseconds. A cycle is 62.5 ns.

    ValueError: the text is no time."""
    found = re.fullmatch(r"([0-9]{1,12}(?:\.[0-9]{1,9})?)(ns|us|ms|s|cy)?", text.strip())
    if not found:
        raise ValueError(f"{text!r} is no time, such as 200ms, 1.5s or 30us")
    return round(float(found[1]) * UNITS[found[2] or "us"])


def shown(cycle: int) -> str:
    """A cycle as milliseconds, with at most four places after the point: `12.0625 ms`."""
    text = f"{cycle / 16_000:.4f}"
    return text.rstrip("0").rstrip(".") + " ms"
