#!/usr/bin/env python3
"""Makes the modules of crates/rows_modules/data, with its args and stdout, from the rows beside this file.

    tools/modules/make.py           writes the modules, the words and the expected lines
    tools/modules/make.py --check   writes nothing and says what differs from the files that stand

Both say where wasm-validate answers otherwise than the row.

A row is `NAME: SOURCE` or `NAME @ PLACE: SOURCE`; lines that begin with a blank go on with the row above. NAME begins
with the number of the refusal, or with `ok`; a `~` behind it says that wasm-validate answers otherwise, and the comment
above says why. SOURCE is one of

    (module ..)       text of WebAssembly, made binary by wat2wasm with the features that are accepted
    clang WORDS       words for clang and wasm-ld, the source among them
    rust WORDS        words for rustc, the source among them; where no target wasm32 is there, the module that stands is
                      left as it is, and the script says so. RUSTC names the compiler, else Debian's is taken
    bytes             hexadecimal digits, "text", $word for a word of the table below, N*( .. ) for repetition, with # for
                      the four digits of its turn, [ .. ] for a part behind its size, and ^ before the byte at which
                      the module breaks

The expected answer is that of the row and never that of the program. Needs Debian's wabt, clang and lld; for Rust its rustc and
libstd-rust-dev-wasm32.
"""
import os
import re
import subprocess
import sys
import tempfile

HERE = os.path.dirname(os.path.abspath(__file__))
CRATE = os.path.join(HERE, "..", "..", "crates", "rows_modules")

NAMES = {
    60: "WasmMagic", 61: "WasmCut", 62: "WasmLeb", 63: "WasmSection", 64: "WasmType", 65: "WasmOpcode",
    67: "WasmUtf8", 68: "WasmCount", 69: "WasmLimit", 70: "ValidIndex", 71: "ValidType",
    72: "ValidConst", 73: "ValidExport", 74: "ValidForm", 77: "ChipInit", 78: "ValidSegment", 79: "ValidLimit",
}

# Rules that are this project's own: wasm-validate knows none of them.
OWN = {69, 77, 78, 79}

FEATURES = [
    "--disable-" + feature
    for feature in (
        "mutable-globals simd multi-value reference-types".split()
    )
]

# Words that stand for bytes, written as rows are.
WORDS = {
    "wasm": "0061736d 01000000",
    # one function type without parameters and results, and one function of it
    "fn": "$wasm 01 [ 01 600000 ] 03 [ 01 00 ]",
    # the same with that function exported as chipInit
    "chip": '$fn 07 [ 01 08 "chipInit" 00 00 ]',
}

TOKEN = re.compile(r'\s*(?:("[^"]*")|(\d+\*\()|\$(\w+)|([0-9a-f]{2}(?:[0-9a-f]{2})*)|([\[\])^#]))')


def leb(n):
    out = bytearray()
    while n > 127:
        out.append(n % 128 + 128)
        n //= 128
    out.append(n)
    return bytes(out)


def tokens(text):
    at = 0
    text = text.rstrip()
    while at < len(text):
        found = TOKEN.match(text, at)
        if not found:
            sys.exit(f"not understood: {text[at:at + 40]}")
        at = found.end()
        yield found.groups()


def group(stream, closer):
    """The tokens up to the closer of a group that has been opened."""
    inner, opened = [], 0
    for token in stream:
        text, repeat, word, digits, sign = token
        if sign == closer and opened == 0:
            return inner
        if repeat or sign == "[":
            opened += 1
        if sign in ("]", ")"):
            opened -= 1
        inner.append(token)
    sys.exit(f"no {closer}")


def assemble(stream, turn=0):
    """The bytes, and where the mark stands among them."""
    out, mark = bytearray(), None
    stream = iter(stream)
    for text, repeat, word, digits, sign in stream:
        at = None
        if text:
            part = text[1:-1].encode()
        elif repeat:
            inner = group(stream, ")")
            part = b"".join(assemble(inner, i)[0] for i in range(int(repeat[:-2])))
        elif word:
            part, at = assemble(tokens(WORDS[word]))
        elif digits:
            part = bytes.fromhex(digits)
        elif sign == "[":
            inner, at = assemble(group(stream, "]"), turn)
            part = leb(len(inner)) + inner
            at = None if at is None else at + len(part) - len(inner)
        elif sign == "#":
            part = b"%04d" % turn
        elif sign == "^":
            part, at = b"", 0
        else:
            sys.exit(f"a {sign} that nothing opens")
        if at is not None:
            mark = len(out) + at
        out.extend(part)
    return bytes(out), mark


def run(words):
    done = subprocess.run(words, cwd=HERE, capture_output=True, text=True)
    if done.returncode != 0:
        sys.exit(" ".join(words) + "\n" + done.stderr)


def from_text(text, folder):
    source, made = os.path.join(folder, "source.wat"), os.path.join(folder, "made.wasm")
    with open(source, "w") as file:
        file.write(text)
    run(["wat2wasm", "--no-check", *FEATURES, source, "-o", made])
    with open(made, "rb") as file:
        return file.read()


def from_c(words, folder):
    made, compiled = os.path.join(folder, "made.wasm"), os.path.join(folder, "made.o")
    linking = [word for word in words.split() if word.startswith("-Wl,")]
    run(["clang", "--target=wasm32", "-c", *(word for word in words.split() if word not in linking), "-o", compiled])
    # -O is not among these words: with it clang runs wasm-opt where binaryen is installed
    run(["clang", "--target=wasm32", "-nostdlib", "-Wl,--no-entry", *linking, compiled, "-o", made])
    with open(made, "rb") as file:
        return file.read()


def from_rust(words, folder):
    """The module, or None where rustc has no target wasm32."""
    rustc = os.environ.get("RUSTC", "/usr/bin/rustc")
    made = os.path.join(folder, "made.wasm")
    words = [rustc, "--target=wasm32-unknown-unknown", "--crate-type=cdylib", "-Clinker=wasm-ld", "-Cpanic=abort",
             "-Cstrip=symbols", "-Clink-arg=--export-table", *words.split(), "-o", made]
    try:
        done = subprocess.run(words, cwd=HERE, capture_output=True, text=True)
    except FileNotFoundError:
        return None
    if "can't find crate" in done.stderr:
        return None
    if done.returncode != 0:
        sys.exit(" ".join(words) + "\n" + done.stderr)
    with open(made, "rb") as file:
        return file.read()


def rows():
    """Each row of each table as name, place, source, and whether wasm-validate is to answer the same."""
    for table in sorted(name for name in os.listdir(HERE) if name.endswith(".rows")):
        row = ""
        with open(os.path.join(HERE, table)) as file:
            for line in [*file, "end: "]:
                line = line.rstrip("\n")
                if line.startswith("#") or not line.strip():
                    continue
                if line[0] == " ":
                    row += "\n" + line
                    continue
                if row:
                    head, source = row.split(":", 1)
                    name, _, place = head.partition(" @ ")
                    yield name.rstrip(" ~"), place.strip(" ~"), source.strip(), "~" not in head
                row = line


def made(source, folder):
    if source.startswith("(module"):
        return from_text(source, folder), None
    if source.startswith("clang "):
        return from_c(source[6:], folder), None
    if source.startswith("rust "):
        return from_rust(source[5:], folder), None
    return assemble(tokens(source))


def expected(name, place, mark):
    if name.startswith("ok"):
        return "accepted"
    number = int(name[:2])
    if mark is not None:
        place = f"byte {mark}"
    return f"refused {number} {NAMES[number]} {place}".rstrip()


def wabt_agrees(name, path):
    """Whether wasm-validate accepts what is to be accepted, and refuses what breaks one of its rules."""
    done = subprocess.run(["wasm-validate", "--no-debug-names", *FEATURES, path], capture_output=True, text=True)
    if name.startswith("ok"):
        return done.returncode == 0
    if int(name[:2]) in OWN:
        return True
    return done.returncode != 0


def put_file(path, content, check):
    old = open(path, "rb").read() if os.path.exists(path) else None
    if old == content:
        return
    print(("differs: " if check else "written: ") + os.path.relpath(path))
    if not check:
        with open(path, "wb") as file:
            file.write(content)


def main():
    check = "--check" in sys.argv[1:]
    data = os.path.join(CRATE, "data")
    os.makedirs(data, exist_ok=True)
    words, lines = [], []
    with tempfile.TemporaryDirectory() as folder:
        for name, place, source, same in rows():
            bytes_, mark = made(source, folder)
            file = name + ".wasm"
            if file in words:
                sys.exit("twice: " + file)
            if bytes_ is None:
                print(f"{file}: there is no rustc for wasm32, so making it anew is skipped", file=sys.stderr)
                with open(os.path.join(data, file), "rb") as stands:
                    bytes_ = stands.read()
            put_file(os.path.join(data, file), bytes_, check)
            words.append(file)
            lines.append(f"{file}: {expected(name, place, mark)}")
            path = os.path.join(folder, "asked.wasm")
            with open(path, "wb") as asked:
                asked.write(bytes_)
            if wabt_agrees(name, path) != same:
                print("wasm-validate answers otherwise: " + file)
    for file in sorted(set(os.listdir(data)) - set(words)):
        print("no row makes: " + file)
    with open(os.path.join(HERE, "cuts.txt")) as file:
        cuts = [line.rstrip("\n") for line in file if not line.startswith("#")]
    put_file(os.path.join(CRATE, "args"), "\n".join([*words, "--cuts", "ok-inverter.wasm", ""]).encode(), check)
    put_file(os.path.join(CRATE, "stdout"), "\n".join([*lines, *cuts, ""]).encode(), check)


main()
