"""What the pages under docs/ have in their tables: commands, registers, traps and refusals. The pages are the one place
where these are written; what the script says about them is read from there."""
import os
import re

DOCS = os.path.normpath(os.path.join(os.path.dirname(os.path.realpath(__file__)), "..", "..", "docs"))


def rows(page, section=None):
    """The cells of each row of a page's tables, of the one section if it is named."""
    found, within = [], section is None
    try:
        with open(os.path.join(DOCS, page), encoding="utf-8") as it:
            lines = it.read().splitlines()
    except OSError:
        return []
    for line in lines:
        if line.startswith("## ") and section is not None:
            within = line[3:].strip() == section
        elif within and line.startswith("| ") and line.endswith(" |"):
            found.append([it.replace("\\|", "|").strip() for it in re.split(r"(?<!\\)\|", line)[1:-1]])
    return found


def plain(text):
    """A cell without its marks: links keep their words."""
    return re.sub(r"\[([^\]]*)\]\([^)]*\)", r"\1", text).replace("`", "").strip()


class Usage:
    """A command as its row in COMMANDS.md has it: `run FOLDER --us N [--script FILE]`. Of groups of options in parentheses,
    with `|` between them, one is given, and all of it."""

    def __init__(self, shape, does):
        self.shape, self.does = shape, does
        self.name = shape.split()[0]
        option = r"(--[a-z0-9-]+) ([A-Z]+)"
        self.options = dict(re.findall(option, shape))
        self.one_of = [[name for name, _ in re.findall(option, it)] for group in re.findall(r"\(([^)]*)\)", shape) for it in group.split("|")]
        alone = re.sub(r"\[[^\]]*\]|\([^)]*\)", "", shape)
        self.needed = [name for name, _ in re.findall(option, alone)]
        self.takes = re.sub(option, "", alone).split()[1:]


def commands(section=None):
    """The commands of COMMANDS.md by their names; those of the program alone, or of the section that is named."""
    found = {}
    for cells in rows("COMMANDS.md", section):
        if len(cells) == 2 and re.fullmatch(r"`[a-z][a-z-]*( .*)?`", cells[0]):
            usage = Usage(plain(cells[0]), plain(re.sub(r" \(`[A-Z]*\.md`\)", "", cells[1])))
            found[usage.name] = usage
    return found


def numbered(page, number, section=None):
    """The row of a number: its name, what it means, and what to do."""
    for cells in rows(page, section):
        if len(cells) == 4 and cells[0] == str(number):
            return plain(cells[1]), plain(cells[2]), plain(cells[3])
    return None


def refusal(number):
    """A refusal's row, and the page that has it."""
    for page in ("REFUSALS.md", "CHIPS.md"):
        row = numbered(page, number)
        if row and not (page == "CHIPS.md" and number < 60):
            return row, f"docs/{page}"
    return None, None


def trap(number):
    return numbered("CHIPS.md", number, "What ends a chip")


def registers():
    """By data address: the register's name and the unit it belongs to, from REPORT.md."""
    found = {}
    for cells in rows("REPORT.md", "Registers that are not there"):
        for address, name in re.findall(r"`0x([0-9A-F]{2})` ([A-Z0-9]+)", cells[1] if len(cells) == 2 else ""):
            found[int(address, 16)] = name, plain(cells[0])
    return found


def omissions():
    """By the name of what firmware can ask for that is left out: {data address: (register, what is said, whether a test fails)}."""
    found = {}
    for cells in rows("REPORT.md", "What firmware asked for that is left out"):
        for address, name in re.findall(r"`0x([0-9A-F]{2})` ([A-Z0-9]+)", cells[1] if len(cells) == 4 else ""):
            found.setdefault(cells[0], {})[int(address, 16)] = name, plain(cells[2]), cells[3] == "fails"
    return found


def halts():
    """By word: what it is, from REPORT.md."""
    return {int(cells[0].strip("`"), 16): plain(cells[1]) for cells in rows("REPORT.md", "A core that has halted") if len(cells) == 2 and re.fullmatch(r"`0x[0-9A-F]{4}`", cells[0])}
