#!/usr/bin/env python3
"""The functions that say too much at once: with more than 7 parameters, or more than 8 clauses.

  wide.py            those of the crates in which boards are moved
  wide.py CRATE..    those of these crates

A line for each, with its place, its name, how many parameters it has (`self` is one) and how many clauses (each `requires`
and `ensures`). Last comes how many they are. What may stay is what users of a crate call, as `Board::run`: its clauses are
what is promised. Another function is split, or its clauses become one record in `specs/`.
"""
import pathlib
import re
import sys

TOP = pathlib.Path(__file__).resolve().parents[2]
CRATES = "board_run net_resolve board_twin any_part part_played cli_twin sim_outcome_model cli_project".split()
PARAMETERS, CLAUSES = 7, 8
HEAD = re.compile(r"^[ \t]*(?:pub(?:\([^)]*\))? )?(?:const )?fn (\w+)", re.M)


def end_of(text, start):
    """Where the bracket at this place is closed, and how many items stand in it, parted by commas."""
    depth, items, some = 0, 0, False
    for place in range(start, len(text)):
        here = text[place]
        if here in "([{<":
            depth += 1
        elif here in ")]}" or here == ">" and text[place - 1] != "-":
            depth -= 1
            if not depth:
                return place, items + some
        elif here == "," and depth == 1:
            items, some = items + some, False
            continue
        some = some or depth >= 1 and place > start and not here.isspace()
    return len(text), items


def clauses_of(text, start):
    """How many clauses a signature has that ends here: they stand before its body, or before what comes after it."""
    signature, *lines = text[start:].splitlines()
    count = 0
    for line in [] if signature.rstrip().endswith(("{", ";")) else map(str.strip, lines):
        if line in ("{", "}") or line.startswith(("fn ", "pub ", "#[", "//", "ghost ", "impl ")):
            break
        count += re.match(r"(requires|ensures)\b", line) is not None
    return count


def functions_of(text):
    """The functions of a file: the line, the name, the numbers of parameters and of clauses."""
    for found in HEAD.finditer(text):
        start = found.end()
        if text[start] == "<":
            start = end_of(text, start)[0] + 1
        end, parameters = end_of(text, start)
        yield text.count("\n", 0, found.start()) + 1, found[1], parameters, clauses_of(text, end)


def wide_of(top, crates):
    for crate in crates:
        for path in sorted((top / "crates" / crate / "src").glob("**/*.rt")):
            for line, name, parameters, clauses in functions_of(path.read_text()):
                if parameters > PARAMETERS or clauses > CLAUSES:
                    yield f"{path.relative_to(top)}:{line}: {name} has {parameters} parameters and {clauses} clauses"


def main(words, top=TOP):
    unknown = [crate for crate in words if not (top / "crates" / crate).is_dir()]
    if unknown:
        print(f"there is no crate {unknown[0]}", file=sys.stderr)
        return 2
    wide = list(wide_of(top, words or CRATES))
    print(*wide, f"{len(wide)} with more than {PARAMETERS} parameters or {CLAUSES} clauses", sep="\n")
    return 0


if __name__ == "__main__":
    sys.exit(main(sys.argv[1:]))
