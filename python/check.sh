#!/bin/sh
# Tries the Python package: its types, its form and its tests, among them pytest with the plugin; then the example's tests. What
# needs a tool that is not there, or a live board that the program has not, is skipped with a word. Ends with 1 where something
# fails. PROGRAM is the program to try.
here=$(cd "$(dirname "$0")" && pwd) || exit 1
root=$(cd "$here/.." && pwd) || exit 1
if [ -z "${PROGRAM:-}" ]; then
    PROGRAM=$root/target/mudflatjar
    [ -x "$PROGRAM" ] || PROGRAM=$root/dist/mudflatjar
fi
[ -x "$PROGRAM" ] || { echo "python: there is no program to try: PROGRAM names it" >&2; exit 1; }
PROGRAM=$(realpath "$PROGRAM")
export PROGRAM PYTHONPATH="$here" PYTHONDONTWRITEBYTECODE=1
unset MUDFLATJAR
# Debian's own Python has Debian's pytest and mypy
python=/usr/bin/python3
[ -x $python ] || python=python3
$python -c 'import sys; sys.exit(sys.version_info < (3, 11))' || { echo "python: python3 is older than 3.11, skipped" >&2; exit 0; }
work=$(mktemp -d) || exit 1
trap 'rm -rf "$work"' EXIT
bad=0
check() { # NAME COMMAND WORDS
    name=$1
    shift
    if "$@" >"$work/log" 2>&1; then echo "python: $name: ok"; else cat "$work/log"; echo "python: $name: failed"; bad=1; fi
    sed -n 's/.*\(skipped: .*\).$/\1/p' "$work/log" | sort | uniq -c | sed 's/^/python: /' >&2
}
if $python -c 'import mypy' 2>/dev/null; then
    check types $python -m mypy --strict --cache-dir "$work/mypy" "$here/mudflatjar"
else
    echo "python: no mypy, types are skipped" >&2
fi
if $python -c 'import black' 2>/dev/null; then
    check form $python -m black --quiet --check -l 120 "$here"
else
    echo "python: no black, the form is skipped" >&2
fi
check "its tests" $python -B -m unittest discover -v -s "$here/tests" -t "$here/tests"
if ! printf 'quit\n' | "$PROGRAM" serve "$root/examples/button" >/dev/null 2>&1; then
    echo "python: this program has no serve, the example is skipped" >&2
elif ! $python -c 'import pytest' 2>/dev/null; then
    echo "python: no pytest, the example is skipped" >&2
elif ! command -v avr-g++ >/dev/null || [ ! -d /usr/share/arduino/hardware/arduino/avr/cores/arduino ]; then
    echo "python: no avr-g++ or arduino-core-avr, the example is skipped" >&2
else
    check "the thermostat" $python -m pytest -q -p no:cacheprovider "$root/examples/thermostat"
fi
exit $bad
