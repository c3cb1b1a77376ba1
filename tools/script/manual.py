#!/usr/bin/env python3
"""Writes what docs/COMMANDS.md says of the commands as a manual page or as completions:  manual.py man|bash|zsh|fish"""
import re
import sys

import pages

FIRST = {
    "--try": "run a program that is compiled and not proved",
    "--built": "run the program that was built last",
    "--released": "run the program in dist/",
    "--help": "list the commands",
    "--version": "say which program is run",
}


def roff(text):
    text = text.replace("\\", "\\\\").replace("-", "\\-")
    return re.sub(r"(?m)^([.'])", r"\\&\1", text)


def man():
    lines = ['.TH MUDFLATJAR 1 "" "Mudflatjar" "User Commands"', ".SH NAME", "mudflatjar \\- simulate an Arduino Uno with the parts that are wired to it"]
    lines += [".SH SYNOPSIS", ".B mudflatjar", roff("[--try | --built | --released] COMMAND WORDS"), ".SH COMMANDS"]
    for usage in pages.commands().values():
        lines += [".TP", f".B {roff(usage.shape)}", roff(usage.does)]
    lines += [".PP", "N is a number of microseconds from 1 to 10000000, or a time as 200ms or 5s.", ".SH OPTIONS"]
    for name, does in FIRST.items():
        lines += [".TP", f".B {roff(name)}", roff(does)]
    lines += [".SH EXIT STATUS"]
    for cells in pages.rows("REFUSALS.md"):
        if len(cells) == 3 and cells[0].isdigit():
            lines += [".TP", f".B {cells[0]}", roff(f"{pages.plain(cells[1])}: {pages.plain(cells[2])}")]
    lines += [".SH SEE ALSO", roff("docs/COMMANDS.md, docs/PROJECTS.md, docs/REFUSALS.md, docs/REPORT.md, docs/CHIPS.md of the distribution")]
    return "\n".join(lines) + "\n"


def takes_file(usage, name):
    return usage.options.get(name) == "FILE"


def bash():
    rows = "\n".join(f"    {it.name}) words=\"{' '.join(it.options)}\" ;;" for it in pages.commands().values())
    numbers = "|".join(sorted({name for it in pages.commands().values() for name in it.options if not takes_file(it, name)}))
    return f"""_mudflatjar() {{
    local here=${{COMP_WORDS[COMP_CWORD]}} before=${{COMP_WORDS[COMP_CWORD - 1]}} command= words= word
    for word in "${{COMP_WORDS[@]:1:COMP_CWORD - 1}}"; do
        case $word in -*) ;; *) command=$word; break ;; esac
    done
    case $before in {numbers}) return ;; esac
    case $command in
    '') words="{' '.join([*FIRST, *pages.commands()])}" ;;
{rows}
    esac
    if [[ $command && $here != -* ]]; then
        compopt -o filenames 2>/dev/null
        mapfile -t COMPREPLY < <(compgen -f -- "$here")
    else
        mapfile -t COMPREPLY < <(compgen -W "$words" -- "$here")
    fi
}}
complete -F _mudflatjar mudflatjar ./mudflatjar
"""


def quoted(text):
    return "'" + text.replace("'", "'\\''") + "'"


def first_of(usage):
    """What a command does, up to its first stop."""
    return re.split(r"[.;,:] |: ", usage.does)[0]


def zsh():
    commands = "\n".join(f"        {quoted(it.name + ':' + first_of(it).replace(':', ''))}" for it in pages.commands().values())
    rows = []
    for it in pages.commands().values():
        options = [quoted(f"{name}=[]:{value.lower()}:{'_files' if value == 'FILE' else ''}") for name, value in it.options.items()]
        rows.append(f"    {it.name}) _arguments {' '.join([*options, quoted('*:file:_files')])} ;;")
    first = " ".join(quoted(f"{name}[{does}]") for name, does in FIRST.items())
    return f"""#compdef mudflatjar
_mudflatjar() {{
    local line state
    _arguments -C {first} '1:command:->command' '*::words:->words'
    case $state in
    command)
        local -a commands=(
{commands}
        )
        _describe command commands ;;
    words)
        case $line[1] in
{chr(10).join('    ' + it for it in rows)}
        esac ;;
    esac
}}
compdef _mudflatjar mudflatjar
"""


def fish():
    names = " ".join(pages.commands())
    lines = [f"complete -c mudflatjar -l {name[2:]} -d {quoted(does)}" for name, does in FIRST.items()]
    for it in pages.commands().values():
        lines.append(f"complete -c mudflatjar -n 'not __fish_seen_subcommand_from {names}' -f -a {it.name} -d {quoted(first_of(it))}")
        for name, value in it.options.items():
            lines.append(f"complete -c mudflatjar -n '__fish_seen_subcommand_from {it.name}' -l {name[2:]} {'-r' if value == 'FILE' else '-x'}")
    return "\n".join(lines) + "\n"


if __name__ == "__main__":
    forms = {"man": man, "bash": bash, "zsh": zsh, "fish": fish}
    if len(sys.argv) != 2 or sys.argv[1] not in forms:
        sys.exit("the form is: completion bash|zsh|fish|man")
    sys.stdout.write(forms[sys.argv[1]]())
