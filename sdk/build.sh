#!/usr/bin/env bash
# Makes the module of a chip from its C or C++ files; the text below says how.
here=$(cd "$(dirname "$0")" && pwd) || exit 1
clang=${CLANG:-clang}
usage='usage: sdk/build.sh [--libc] [--names] -o NAME.wasm [WORDS] FILE.c ...'
help="$usage

Makes the module of a chip from its C files, or C++ files without C++'s library.

  -o NAME.wasm  the module; the list of its pins is NAME.json, next to it
  --libc        links the C library: stdio.h, stdlib.h, string.h and so on
  --names       keeps the names of its functions, by which a trap is told
  --help        shows this text

WORDS that begin with - are handed to clang: -O0, -D NAME=VALUE, -I FOLDER.
-l NAME, -L FOLDER, -z stack-size=BYTES, -Wl,WORD, objects (.o) and archives (.a)
are for the linker.
CLANG in the environment names another compiler than clang.

Debian has clang in the packages clang and lld, and the C library in
wasi-libc and libclang-rt-dev-wasm32.

Status: 0, the module is made; 1, it is not; 2, the words are not understood.
docs/CHIPS.md explains how to write a chip and put it on a board."

say() { echo "sdk/build.sh: $*" >&2; }
misused() { say "$*"; echo "$usage" >&2; exit 2; }

libc=
strip=--strip-all
module=
sources=()
compiling=()
linking=()
while [ $# -gt 0 ]; do
    case $1 in
    --help | -h) echo "$help"; exit 0 ;;
    --libc) libc=yes ;;
    --names) strip=--strip-debug ;;
    -o | -D | -U | -I | -L | -l | -z | -x | -include | -imacros | -iquote | -isystem | -idirafter | -MF | -MT | -MQ | -Xclang | -Xlinker | -mllvm)
        [ $# -gt 1 ] || misused "$1 has no word after it"
        case $1 in
        -o) module=$2 ;;
        -z) linking+=("-Wl,-z,$2") ;;
        -L | -l | -Xlinker) linking+=("$1" "$2") ;;
        *) compiling+=("$1" "$2") ;;
        esac
        shift
        ;;
    -c | -S | -E | -fsyntax-only) misused "$1 makes no module" ;;
    -o*) module=${1#-o} ;;
    -Wl,* | -L* | -l* | *.o | *.a) linking+=("$1") ;;
    -*) compiling+=("$1") ;;
    *) sources+=("$1") ;;
    esac
    shift
done
[ -n "$module" ] || misused "no module is named: -o NAME.wasm"
case $module in *.c | *.h) misused "$module is a source, and not the name of a module" ;; esac
[ ${#sources[@]} -gt 0 ] || misused "no C file is named"
for source in "${sources[@]}"; do
    [ -f "$source" ] || { say "there is no file $source"; exit 1; }
done

# ---- the tools

setup=" (./mudflatjar setup chips)"
have() { command -v "$1" >/dev/null; }
have "$clang" || { say "there is no $clang: install Debian's packages clang and lld$setup, or name a compiler by CLANG"; exit 1; }
have "$("$clang" --print-prog-name=wasm-ld)" || { say "there is no wasm-ld, the linker: install Debian's package lld$setup"; exit 1; }
target=--target=wasm32
[ -n "$libc" ] && target=--target=wasm32-wasi
if [ -n "$libc" ]; then
    [ -f "$("$clang" $target --print-file-name=libc.a)" ] || { say "there is no C library: install Debian's package wasi-libc$setup"; exit 1; }
    [ -f "$("$clang" $target --print-libgcc-file-name)" ] || { say "the C library needs libclang_rt.builtins-wasm32.a: install Debian's package libclang-rt-dev-wasm32$setup"; exit 1; }
fi

# ---- compile and link

work=$(mktemp -d) || exit 1
trap 'rm -rf "$work"' EXIT
color=()
[ -t 2 ] && color=(-fcolor-diagnostics)

# Callbacks have parameters that a chip may not need, so unused ones are no warning.
words=("$target" -O2 -mbulk-memory -Wall -Wextra -Wno-unused-parameter -Werror=implicit-function-declaration -I"$here")
if [ -n "$libc" ]; then
    kit=
    # The stack is below the data, so that one that overflows leaves the memory and ends the chip.
    layout=(-nostartfiles "-Wl,--stack-first,-z,stack-size=65536")
else
    kit=$here/freestanding/string.c
    words+=(-ffreestanding -nostdlibinc -I"$here/freestanding" -Wframe-larger-than=4096)
    layout=(-nostdlib "-Wl,-z,stack-size=8192")
fi

tool() { # WORDS: clang's messages are shown, and kept for `explain`
    "$clang" "$@" 2>"$work/messages"
    local status=$?
    sed "s|$work/[0-9]*/||g" "$work/messages" | tee -a "$work/said" >&2
    return $status
}
objects=()
compile() { # FILE, WORDS
    local folder=$work/${#objects[@]} name
    name=$(basename "$1")
    mkdir "$folder" && objects+=("$folder/${name%.*}.o") &&
        tool "${words[@]}" "${color[@]}" "${@:2}" -c -o "$folder/${name%.*}.o" "$1"
}
explain() { # what clang's messages do not say
    if grep -q "No available targets" "$work/said"; then
        say "$clang does not compile for WebAssembly: name another by CLANG"
    elif grep -q 'Executable "wasm-ld.*" doesn.t exist' "$work/said"; then
        say "$clang needs the linker of its own version: install Debian's package lld or lld-VERSION"
    elif [ -z "$libc" ] && grep -q "'[a-z0-9_/]*\.h' file not found" "$work/said"; then
        say "without --libc there is no C library, and no header file of it"
    elif grep -q "undefined symbol: " "$work/said"; then
        if [ -n "$libc" ]; then
            say "a function is called that is in none of the files and not in the C library: is a file missing?"
        else
            say "a function is called that is in none of the files: is a file missing, or --libc?"
        fi
    elif grep -q -e "implicit declaration of function" -e "call to undeclared function" "$work/said"; then
        say "a function is called that no header file declares: docs/CHIPS.md, \"A chip written for Wokwi\", has what is not there"
    fi
    exit 1
}
bad=0
for source in "${sources[@]}"; do
    beside=$(dirname "$source")/wokwi-api.h
    if [ -f "$beside" ] && ! [ "$beside" -ef "$here/wokwi-api.h" ]; then
        say "$source uses the $beside next to it, and not the one of the kit: remove it where this fails"
    fi
    compile "$source" "${compiling[@]}" || bad=1
done
[ $bad = 0 ] || explain
if have python3; then python3 -B "$here/module.py" --floats "${objects[@]}" || exit 1; fi
[ -z "$kit" ] || compile "$kit" || explain

# -O is not among these words: with it clang runs wasm-opt where binaryen is installed, which refuses memory.copy.
tool "$target" "${layout[@]}" "-Wl,--no-entry,--export-table,$strip" "${objects[@]}" "${linking[@]}" -o "$work/module.wasm" || explain
if have python3; then
    python3 -B "$here/module.py" "$work/module.wasm" "$module" "${sources[@]}" || exit 1
fi
cat "$work/module.wasm" 2>/dev/null >"$module" || { say "$module cannot be written"; exit 1; }
