"""What a test may not be silent about: the same reasons, in the same words, as those of scenarios (docs/TESTING.md)."""
from __future__ import annotations

from collections.abc import Sequence
from typing import Any, NamedTuple

from . import tools
from .project import Project


class Verdict(NamedTuple):
    """Sentences about what did not happen as the firmware, a chip or the diagram meant it."""

    fails: list[str]
    """What fails a test."""
    told: list[str]
    """What may be harmless."""
    how: str
    """How a test says that it means what fails it; empty where nothing does."""


class Truth:
    """The verdicts on one board."""

    def __init__(self, project: Project, allowed: Sequence[str]) -> None:
        """`allowed` are the words of what the test means. ValueError: one of them names nothing."""
        self.project, self.allowed = project, tuple(allowed)
        self.module = tools.module("truth")
        unknown = self.module.unknown(self.allowed, [str(part["id"]) for part in project.diagram["parts"]])
        if unknown:
            kinds = ", ".join(self.module.KINDS)
            raise ValueError(
                f"allow: {unknown[0]!r} names nothing that can be left out: {kinds}, a register such as CLKPR"
            )
        self.of_project: list[Any] | None = None

    def verdict(self, report: str, omissions: str | None = None) -> Verdict:
        """What a report says, with what the firmware asked for that is left out, where the live board says it, what the chips do not
        get of the diagram, and wiring that cannot be meant; without what is allowed."""
        if self.of_project is None:
            made, sketch = self.project.made, self.project.folder
            self.of_project = [*self.module.of_project(made), *self.module.of_wiring(made, {}, sketch)]
        text = report if omissions is None else f"{report}{omissions}omitted\n"
        found = [*self.module.of_report(text), *self.of_project]
        told = self.module.verdict(found, self.allowed, hex_file=self.project.hex)
        kept = [it for it in found if it.fails and not set(self.allowed) & set(it.names)]
        how = f"(where the test means this: allow=[..] with one of: {self.module.kinds_of(kept)})"
        return Verdict(list(told.fails), list(told.told), how if told.fails else "")
