#!/bin/sh
# Tries the tools for Wokwi's folders, scenarios and tests: their own tests, the chips made again, and the projects here, each
# lowered, run and compared with its expected/ and its scenarios. Ends with 1 where one fails. PROGRAM is the program to try.
# What needs a compiler that is not there is skipped.
here=$(cd "$(dirname "$0")" && pwd) || exit 1
root=$(cd "$here/../.." && pwd) || exit 1
if [ -z "${PROGRAM:-}" ]; then
    PROGRAM=$root/target/mudflatjar
    [ -x "$PROGRAM" ] || PROGRAM=$root/dist/mudflatjar
fi
[ -x "$PROGRAM" ] || { echo "wokwi: there is no program to try: PROGRAM names it" >&2; exit 1; }
PROGRAM=$(realpath "$PROGRAM")
export PROGRAM
unset MUDFLATJAR
python3 -c 'import sys; sys.exit(sys.version_info < (3, 11))' || { echo "wokwi: python3 is older than 3.11, skipped" >&2; exit 0; }
python3 -c 'import yaml' 2>/dev/null || { echo "wokwi: no python3-yaml, skipped" >&2; exit 0; }
work=$(mktemp -d) || exit 1
trap 'rm -rf "$work"' EXIT
export XDG_CACHE_HOME="$work/cache" # nothing that was built before counts
bad=0
check() { # NAME COMMAND WORDS
    name=$1
    shift
    if "$@" >"$work/log" 2>&1; then echo "wokwi: $name: ok"; sed -n "/: skipped/p" "$work/log" >&2; else sed 's/^/    /' "$work/log"; echo "wokwi: $name: failed"; bad=1; fi
}

check "archives" python3 -B "$here/test_archive.py"
check "lowering" python3 -B "$here/test_lower.py"
check "controls" python3 -B "$here/test_moves.py"
check "the table of parts" python3 -B "$here/parts_table.py"
check "what fails a test" python3 -B "$here/../test_truth.py"
check "scenarios, tests, play" python3 -B "$here/test_runs.py"
check "chips on waves" python3 -B "$here/test_chips.py"

chips=yes
if command -v "${CLANG:-clang}" >/dev/null && command -v wasm-ld >/dev/null; then
    mkdir "$work/chips"
    check "the chips are made" "$here/chips.sh" --into "$work/chips"
    for module in "$here"/chips/*.wasm; do
        cmp -s "$module" "$work/chips/$(basename "$module")" || again=yes
    done
    [ -z "${again:-}" ] || echo "wokwi: this compiler makes other modules than those that are here" >&2
else
    chips=
    echo "wokwi: no clang or wasm-ld: chips are not made, and the project with one in C is skipped" >&2
fi
if command -v avr-g++ >/dev/null && [ -d /usr/share/arduino/hardware/arduino/avr/cores/arduino ]; then
    cp -r "$here/projects" "$work/projects"
    [ -n "$chips" ] || rm -r "$work/projects/own-chip"
    # each must be one that the program takes only once it is lowered, or whose sketch is to be built
    for folder in "$work"/projects/*/; do
        "$PROGRAM" check "$folder" >/dev/null 2>&1 && { echo "wokwi: $folder needs no lowering"; bad=1; }
    done
    check "the projects" "$here/../run-tests" "$work/projects"
    [ $bad = 1 ] || sed -n 's/^/wokwi: /p' "$work/log"
else
    echo "wokwi: no avr-g++ or arduino-core-avr: the projects are skipped" >&2
fi
exit $bad
