#!/usr/bin/env python3
"""Makes of LLVM's text of a module for x86-64 the same for a wasm module with a memory of 64 bits.

    retarget.py FROM.ll TO.ll EXPORT[=FUNCTION]..

Both targets have the lowest byte first, pointers of 64 bits and the same sizes and offsets, and the module lays out its values
by bytes. So only the names of target and processor change, and what speaks of the processor's stack goes. It stops at all that
exists on x86-64 alone. Each EXPORT is the name under which the module gives its host that function, or the one of this name.
It prints what the module calls outside.
"""
import re
import sys

LAYOUT = 'e-m:e-p:64:64-p10:8:8-p20:8:8-i64:64-i128:128-n32:64-S128-ni:1:10:20'
TRIPLE = 'wasm64-unknown-unknown'
PROCESSOR = 'lime1'
WORDS = ('asm', 'x86', 'ppc_fp128', 'inalloca', 'byval', 'sret', 'cmpxchg', 'atomic', 'addrspace', 'fence', 'thread_local', 'musttail')
X86_ALONE = re.compile(r'\b(?:asm|x86_fp80|x86_amx|ppc_fp128|inalloca|byval|sret|cmpxchg|atomicrmw)\b'
                       r'|@llvm\.x86\.|addrspace\(|^ *fence |\b(?:load|store) atomic\b|\bthread_local\b|\bmusttail\b')
STACK = re.compile(r' ?"(?:probe-stack|stack-probe-size|target-features|frame-pointer|tune-cpu)"="[^"]*"')
CHECKS = re.compile(r'\bsanitize_address ?')


class Stop(Exception):
    """What the module has and the target has not."""


def replaced_once(pattern, new, text):
    text, count = re.subn(pattern, new, text, flags=re.M)
    if count != 1:
        raise Stop(f'{count} places of {pattern} in place of one')
    return text


def lines_with(text, word):
    """(number, line) of each line that has the word."""
    at, number, counted = text.find(word), 1, 0
    while at >= 0:
        start, end = text.rfind('\n', 0, at) + 1, text.find('\n', at)
        end = len(text) if end < 0 else end
        number, counted = number + text.count('\n', counted, start), start
        yield number, text[start:end]
        at = text.find(word, end)


def check_lines(text):
    for word in WORDS:                                  # a module has millions of lines, and few of them one of these words
        for number, line in lines_with(text, word):
            found = X86_ALONE.search(re.sub(r'"[^"]*"', '""', line))    # names, bytes and attributes are in quotes
            if found:
                raise Stop(f'line {number} has {found[0].strip()}, which the target has not: {line.strip()[:160]}')


def retarget(text, exports):
    check_lines(text)
    text = replaced_once(r'^target datalayout = ".*"$', f'target datalayout = "{LAYOUT}"', text)
    text = replaced_once(r'^target triple = ".*"$', f'target triple = "{TRIPLE}"', text)
    text = re.sub(r'"target-cpu"="[^"]*"', f'"target-cpu"="{PROCESSOR}"', text)
    text = CHECKS.sub('', STACK.sub('', text))
    text = re.sub(r'^(attributes #\d+ = \{) *\}$', rf'\1 "target-cpu"="{PROCESSOR}" }}', text, flags=re.M)    # none may be empty
    for export in exports:
        name, _, function = export.partition('=')
        symbol = re.escape(function or name)
        text = replaced_once(rf'^define (?:internal |hidden |dso_local )*(.*@(?:{symbol}|"{symbol}")\(.*\)[^#\n]*#\d+)', rf'define \1 "wasm-export-name"="{name}"', text)
    return text


def outside(text):
    """The names of functions that the module calls and does not have: the heap's and LLVM's own."""
    return sorted(set(re.findall(r'^declare .*?@([\w.]+)\(', text, re.M)))


def main(words):
    if len(words) < 3:
        print(__doc__.strip(), file=sys.stderr)
        return 2
    source, target, *exports = words
    with open(source, encoding='utf-8') as file:
        text = file.read()
    try:
        text = retarget(text, exports)
    except Stop as why:
        print(f'retarget: {why}', file=sys.stderr)
        return 1
    names = outside(text)
    print('calls', *(name for name in names if not name.startswith('llvm.')))
    print('calls of LLVM', *(name[5:] for name in names if name.startswith('llvm.')))
    with open(target, 'w', encoding='utf-8') as file:
        file.write(text)
    return 0


if __name__ == '__main__':
    sys.exit(main(sys.argv[1:]))
