"""The tools of the repository as functions: they lower diagrams, build sketches, and say what a run left out."""
from __future__ import annotations

import functools
import importlib
import importlib.machinery
import importlib.util
import os
import sys
from types import ModuleType

from .faults import ProgramError
from .program import HERE, TOP


@functools.cache
def folder() -> str:
    """The folder of the tools: what MUDFLATJAR_TOOLS names, else that of the wheel, else that of the checkout.

    ProgramError: there is none."""
    for path in (os.environ.get("MUDFLATJAR_TOOLS"), os.path.join(HERE, "tools"), os.path.join(TOP, "tools")):
        if path and os.path.isdir(os.path.join(path, "wokwi")):
            return os.path.abspath(path)
    raise ProgramError("the tools are not there: name their folder in the environment variable MUDFLATJAR_TOOLS")


@functools.cache
def module(name: str) -> ModuleType:
    """A module of the tools, such as `lower`. The tools are no package: they find each other by the path, under names that others
    may have too (`wave`). So the path and the table of modules are afterwards as they were before.

    ProgramError: it is not there."""
    top = folder()
    places = [os.path.join(top, "wokwi"), os.path.join(top, "script"), top]
    own = {it[:-3] for place in places for it in os.listdir(place) if it.endswith(".py")} | {name}
    path, held = list(sys.path), {it: sys.modules.pop(it) for it in own if it in sys.modules}
    sys.path[:0] = places
    try:
        command = os.path.join(top, "wokwi", name)
        return from_file(name, command) if os.path.isfile(command) else importlib.import_module(name)
    except ModuleNotFoundError as fault:
        if fault.name != name:
            raise
        raise ProgramError(f"{top} has no {name}.py: it is of another release than this package") from None
    finally:
        sys.path[:] = path
        for it in own:
            sys.modules.pop(it, None)
        sys.modules.update(held)


def from_file(name: str, path: str) -> ModuleType:
    """A module that is a command's file, whose name has no ending."""
    loader = importlib.machinery.SourceFileLoader(name, path)
    spec = importlib.util.spec_from_loader(name, loader)
    assert spec
    made = importlib.util.module_from_spec(spec)
    loader.exec_module(made)
    return made
