"""A project's folder made ready for a live board: built, lowered, with sources on the pins that a test drives."""
from __future__ import annotations

import json
import os
import shutil
from collections.abc import Mapping, Sequence
from typing import Any

from . import tools
from .faults import ProjectError

Attributes = Mapping[str, Mapping[str, object]]
UNO = "wokwi-arduino-uno"
OPEN = 2
"""The value at which a `board-source` drives nothing."""


class Project:
    """A folder of a project as Wokwi's editor or this simulator has it, made ready in a folder of its own."""

    def __init__(
        self,
        folder: str,
        box: str,
        inputs: Sequence[str] = (),
        *,
        serial_input: bool = False,
        firmware: str | None = None,
        attributes: Attributes | None = None,
        anyway: bool = False,
    ) -> None:
        """Makes of `folder`, or of a sketch's or a firmware's file with an Uno alone, a project in `box`, an empty folder. `inputs`
        are the pins that get a source, and with `serial_input` the Uno's pin 0 is one; `firmware` is a HEX or ELF file in place of
        the folder's; `attributes` are of parts and chips by their ids; `anyway` leaves out what cannot be simulated.

        ProjectError: the folder is none of a project, or has what cannot be simulated; a line for each reason."""
        self.folder = folder_of(os.path.abspath(folder), box)
        self.made, self.vcd = os.path.join(box, "project"), os.path.join(box, "wave.vcd")
        self.firmware = os.path.abspath(firmware) if firmware else None
        self.notes: list[str] = []
        self.sources: dict[str, str] = {}
        self.attributes = attributes or {}
        self.diagram: dict[str, Any] = {}
        if self.firmware and not os.path.isfile(self.firmware):
            raise ProjectError(f"{self.firmware}: there is no such file")

        def change(lowering: object, diagram: dict[str, Any], out: str) -> None:
            self.diagram = diagram
            for pin in dict.fromkeys([*inputs, *([f"{self.uno}:0"] if serial_input else [])]):
                self.put_source(diagram, pin)

        faults = tools.module("lower").lower(
            self.folder,
            self.made,
            anyway=anyway,
            firmware=self.firmware,
            edit=self.edit,
            change=change,
            say=self.notes.append,
        )
        if faults:
            raise ProjectError("\n".join(faults))
        self.hex = os.path.join(self.made, "firmware.hex")

    def edit(self, diagram: dict[str, Any]) -> None:
        """Gives parts and chips their attributes, before the diagram is lowered."""
        parts = {part.get("id"): part for part in diagram["parts"]}
        for name, given in self.attributes.items():
            if name not in parts:
                raise ProjectError(f"attributes: the diagram has no part {name!r}; it has {', '.join(map(str, parts))}")
            own = parts[name].get("attrs")
            if not isinstance(own, dict):
                own = parts[name]["attrs"] = {}
            for key, value in given.items():
                own[key] = text_of(value)

    def put_source(self, diagram: dict[str, Any], pin: str) -> None:
        """Adds a source for a pin to a diagram: a `board-source`, which drives nothing until it is set.

        ProjectError: the diagram has no Uno, or no such part."""
        ids = [part["id"] for part in diagram["parts"]]
        if self.uno not in ids or pin.split(":")[0] not in ids:
            raise ProjectError(f"{pin} cannot be an input: the board has no part {pin.split(':')[0]!r}")
        source = "test-" + pin.replace(":", "-").replace(".", "-")
        diagram["parts"].append({"type": "board-source", "id": source, "attrs": {}})
        diagram["connections"].append([f"{source}:OUT", pin, "", []])
        self.sources[pin] = source

    def source_of(self, pin: str) -> str:
        """The id of a pin's source. ValueError: the board was made without it."""
        if pin not in self.sources:
            raise ValueError(f"nothing drives {pin} here: Board(folder, inputs=[{pin!r}])")
        return self.sources[pin]

    def without_sources(self, report: str) -> str:
        """A report without the lines of the sources, and of those by which controls are moved."""
        hidden = [str(part["id"]) for part in self.diagram["parts"] if part.get("hide")]
        own = [f"input {source} " for source in [*self.sources.values(), *hidden]]
        return "".join(line + "\n" for line in report.splitlines() if not any(line.startswith(it) for it in own))

    @property
    def uno(self) -> str:
        """The Uno's id."""
        return next((str(part["id"]) for part in self.diagram["parts"] if part["type"] == UNO), "uno")


def text_of(value: object) -> str:
    """An attribute as a diagram has it: a text."""
    return json.dumps(value) if isinstance(value, bool) else str(value)


def folder_of(path: str, box: str) -> str:
    """A folder of a project: the one that is named, or one made in `box` of a sketch or a firmware, with an Uno alone.

    ProjectError: it is none of these."""
    play = tools.module("play")
    try:
        return str(play.folder_of(path, box))
    except (OSError, shutil.Error, play.lower.Fault) as fault:
        raise ProjectError(f"{path}: {getattr(fault, 'strerror', None) or fault}") from None
