#!/usr/bin/env python3
"""Makes the modules of crates/rows_calls/data, with its script and stdout, from calls.rows and operations.table.

    tools/calls/make.py           writes the modules, the script and the expected lines
    tools/calls/make.py --check   writes nothing and says what differs from the files that stand

Both say where wabt's interpreter answers otherwise than the rows. It knows no budget, so calls that end for want of units
(trap 9) are not asked of it, nor are answers with a `~`, nor entries of tables and bytes.

The expected answer is that of the row and never that of the program. Needs Debian's wabt, clang and lld.
"""
import os
import re
import subprocess
import sys
import tempfile

HERE = os.path.dirname(os.path.abspath(__file__))
CRATE = os.path.join(HERE, "..", "..", "crates", "rows_calls")
FEATURES = ["--disable-" + feature for feature in ("multi-value", "reference-types")]
TRAPS = {
    1: "unreachable", 2: "out of bounds memory access", 3: "integer divide by zero", 4: "integer overflow",
    5: "undefined table index", 6: "uninitialized table element", 7: "indirect call signature mismatch",
    8: "call stack exhausted",
}

# The host of the rows, but for its writes and its traps.
DESK = """(module (global $calls (mut i32) (i32.const 0))
  (func $next global.get $calls i32.const 1 i32.add global.set $calls)
  (func (export "count") (result i32) call $next global.get $calls)
  (func (export "mark") (param i32) call $next) (func (export "fail") call $next unreachable)
  (func (export "twice") (param i64) (result i64) call $next local.get 0 i64.const 1 i64.shl))
(register "desk")"""


def run(words):
    done = subprocess.run(words, cwd=HERE, capture_output=True, text=True)
    if done.returncode != 0:
        sys.exit(" ".join(words) + "\n" + done.stderr)
    return done.stdout


def instances():
    """Each row of calls.rows: its name, the source of its module, and its calls."""
    found = []
    with open(os.path.join(HERE, "calls.rows")) as file:
        for line in file:
            line = line.rstrip("\n")
            if line.startswith("#") or not line:
                continue
            if line[0] == ">":
                found[-1][2].append(line[1:].strip())
            elif line[0] == " ":
                found[-1][1] += "\n" + line
            else:
                name, source = line.split(":", 1)
                found.append([name, source.strip(), []])
    return found


def made(source, folder):
    """The module of a row, as the name of a file."""
    module = os.path.join(folder, "made.wasm")
    if source.startswith("clang "):
        compiled = os.path.join(folder, "made.o")
        linking = [word for word in source.split() if word.startswith("-Wl,")]
        run(["clang", "--target=wasm32", "-c", *(word for word in source.split()[1:] if word not in linking), "-o", compiled])
        # -O is not among these words: with it clang runs wasm-opt where binaryen is installed
        run(["clang", "--target=wasm32", "-nostdlib", "-Wl,--no-entry,--strip-all", *linking, compiled, "-o", module])
    else:
        wat = os.path.join(folder, "made.wat")
        with open(wat, "w") as file:
            file.write(source)
        run(["wat2wasm", *FEATURES, wat, "-o", module])
    return module


def bytes_of(source, folder):
    with open(made(source, folder), "rb") as file:
        return file.read()


def with_numbers(source, folder):
    """The module as text, each of its functions exported by its number."""
    module = made(source, folder)
    if source.startswith("clang "):
        source = run(["wasm2wat", *FEATURES, module]).strip()
    count = len(set(re.findall(r"^ - func\[(\d+)\]", run(["wasm-objdump", "-x", module]), re.M)))
    return source[:-1] + "".join(f'(export "{i}" (func {i}))' for i in range(count)) + ")"


# ---- operations

COMPARISONS = "eq ne lt_s lt_u gt_s gt_u le_s le_u ge_s ge_u".split()
COMPUTATIONS = "clz ctz popcnt add sub mul div_s div_u rem_s rem_u and or xor shl shr_s shr_u rotl rotr".split()

# The opcodes ("Binary Format", "Numeric Instructions").
OPCODES = {
    "i32.wrap_i64": 0xA7, "i64.extend_i32_s": 0xAC, "i64.extend_i32_u": 0xAD, "i32.extend8_s": 0xC0, "i32.extend16_s": 0xC1,
    "i64.extend8_s": 0xC2, "i64.extend16_s": 0xC3, "i64.extend32_s": 0xC4,
}
for first, kind, names in (
    (0x45, "i32", ["eqz", *COMPARISONS]), (0x50, "i64", ["eqz", *COMPARISONS]),
    (0x67, "i32", COMPUTATIONS), (0x79, "i64", COMPUTATIONS),
):
    OPCODES.update((f"{kind}.{name}", first + i) for i, name in enumerate(names))


def operations():
    """Each row of operations.table: its operation, its operands and its answer."""
    with open(os.path.join(HERE, "operations.table")) as file:
        for line in file:
            if not line.startswith("#"):
                left, right = line.split("=")
                yield left.split()[0], [int(x, 0) for x in left.split()[1:]], right.strip()


def kinds(name):
    """The types of the operands and of the result."""
    kind, operation = name.split(".")
    if operation.startswith(("wrap_", "extend_")):
        return operation.split("_")[1], kind
    if re.fullmatch(r"eqz?|ne|(lt|gt|le|ge)_[su]", operation):
        return kind, "i32"
    return kind, kind


def operation_rows():
    """A row for all operations: a module with a function for each, in their order, its calls, and each by its opcode."""
    rows = list(operations())
    names = list(dict.fromkeys(name for name, _, _ in rows))
    source = ["(module"]
    for name in names:
        count = next(len(operands) for row, operands, _ in rows if row == name)
        given, result = kinds(name)
        body = " ".join(f"local.get {i}" for i in range(count))
        source.append(f'(func (param {" ".join([given] * count)}) (result {result}) {body} {name})')
    source.append('(func (export "chipInit")))')
    asked = []
    for name, operands, answer in rows:
        given, result = kinds(name)
        operands = ", ".join(f"{given} {x}" for x in operands)
        answer = answer if answer.startswith("trap") else f"{result} {int(answer, 0)}"
        asked.append(f"{names.index(name)} ({operands}) within 100: {answer}")
        asked.append(f"operation {OPCODES[name]} ({operands}): {answer}")
    if set(names) != set(OPCODES):
        sys.exit("operations without a row: " + " ".join(OPCODES.keys() - set(names)))
    return ["operations", "\n".join(source), asked]


# ---- the crate's files

def files(rows, folder):
    """The files of the crate by their names."""
    found, script, stdout = {}, [], []
    for name, source, wanted in rows:
        found[f"data/{name}.wasm"] = bytes_of(source, folder)
        script += [""] * (script != []) + [f"{name}.wasm"]
        stdout.append(f"{name}.wasm")
        for row in wanted:
            asked, answer = row.rsplit(": ", 1)
            asked = re.sub("[(),]", "", asked)
            script.append(asked)
            stdout.append(f"{asked}: {answer.removesuffix(' ~')}")
    found["data/calls.txt"] = "".join(line + "\n" for line in script).encode()
    found["stdout"] = "".join(line + "\n" for line in stdout).encode()
    found["args"] = b"calls.txt\n"
    return found


def stands():
    names = ["stdout", "args"] + ["data/" + name for name in os.listdir(os.path.join(CRATE, "data"))]
    return {name: open(os.path.join(CRATE, name), "rb").read() for name in names if os.path.exists(os.path.join(CRATE, name))}


# ---- wabt

def assertion(function, operands, answer):
    call = f'(invoke "{function}" {operands})'
    if answer == "none":
        return f"(assert_return {call})"
    kind, number = answer.split()
    if kind == "trap":
        return f'(assert_trap {call} "{TRAPS[int(number)]}")'
    return f"(assert_return {call} ({kind}.const {number}))"


def ask_wabt(rows, folder):
    lines = [DESK]
    for _, source, wanted in rows:
        lines.append(with_numbers(source, folder))
        for row in wanted:
            call = re.fullmatch(r"(\d+)(?: \((.*)\))? within \d+: (.*)", row)
            if not call or call.group(3) == "trap 9" or row.endswith("~"):
                continue
            given = " ".join("(%s.const %s)" % tuple(x.split()) for x in (call.group(2) or "").split(",") if x)
            lines.append(assertion(call.group(1), given, call.group(3)))
    script = os.path.join(folder, "asked.wast")
    with open(script, "w") as file:
        file.write("\n".join(lines))
    run(["wast2json", script, "-o", os.path.join(folder, "asked.json")])
    done = subprocess.run(["spectest-interp", os.path.join(folder, "asked.json")], capture_output=True, text=True)
    for line in done.stdout.splitlines():
        if "passed: " not in line:
            print("wabt: " + line.replace(folder + "/", ""))


def main():
    rows = instances() + [operation_rows()]
    with tempfile.TemporaryDirectory() as folder:
        wanted, found = files(rows, folder), stands()
        for name in sorted(found.keys() | wanted.keys()):
            if found.get(name) == wanted.get(name):
                continue
            print(f"{name}: " + ("no row has it" if name not in wanted else "differs" if name in found else "is missing"))
            path = os.path.join(CRATE, name)
            if "--check" in sys.argv[1:]:
                continue
            if name in wanted:
                with open(path, "wb") as file:
                    file.write(wanted[name])
            else:
                os.remove(path)
        ask_wabt(rows, folder)


main()
