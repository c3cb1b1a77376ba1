#!/bin/sh
# Runs docs/TESTING.md: its indented commands in their order, in an empty folder where `mudflatjar` is this repository, and the
# commands of the CI jobs that it speaks of. What is no command is compared with what it quotes. `sudo` and `arduino-cli` are
# stand-ins. Ends with 1 where one fails. PROGRAM is the program to try, ./mudflatjar if it is not set.
here=$(cd "$(dirname "$0")/../.." && pwd) || exit 1
program=$(realpath "${PROGRAM:-$here/target/mudflatjar}")
[ -x "$program" ] || program=$here/mudflatjar
page=$here/docs/TESTING.md
for tool in python3 avr-g++; do
    command -v $tool >/dev/null || { echo "TESTING: no $tool, skipped" >&2; exit 0; }
done
[ -d /usr/share/arduino/hardware/arduino/avr/cores/arduino ] || { echo "TESTING: no arduino-core-avr, skipped" >&2; exit 0; }
python3 -c 'import sys, yaml; sys.exit(sys.version_info < (3, 11))' 2>/dev/null || { echo "TESTING: no python3 of 3.11 with python3-yaml, skipped" >&2; exit 0; }
work=$(mktemp -d) || exit 1
trap 'rm -rf "$work"' EXIT
bad=0
check() { # NAME, WHETHER IT IS SO
    if [ "$2" = 0 ]; then echo "TESTING: $1: ok"; else echo "TESTING: $1: failed"; bad=1; fi
}

# what the page's reader has
mkdir -p "$work/bin" "$work/blocks" "$work/out" "$work/reader/mudflatjar"
for name in docs examples sdk tools; do ln -s "$here/$name" "$work/reader/mudflatjar/$name"; done
printf '#!/bin/sh\nexec "%s" "$@"\n' "$program" >"$work/reader/mudflatjar/mudflatjar"
cat >"$work/bin/sudo" <<"END"
#!/bin/sh
[ "$1" = apt-get ]
END
chmod +x "$work/reader/mudflatjar/mudflatjar" "$work/bin/sudo"
export MUDFLATJAR="$program" XDG_CACHE_HOME="$work/cache"
unset PROGRAM

# a file for each block of the page; a test in Python between fences is run by python/check.sh
awk -v folder="$work/blocks" '
    /^```/ { fenced = !fenced; on = 0; blanks = ""; next }
    fenced { next }
    /^    / { if (!on) { on = 1; name = sprintf("%s/%02d", folder, ++count) } print blanks substr($0, 5) >name; blanks = ""; next }
    on && !NF { blanks = blanks "\n"; next }
    { on = 0; blanks = "" }' "$page"
[ -s "$work/blocks/10" ] || { echo "TESTING: the page has no blocks"; exit 1; }

# the blocks that are commands run in one shell, each with its output in a file
{
    echo 'set -e'
    for block in "$work"/blocks/*; do
        name=$(basename "$block")
        case $(head -n 1 "$block") in
        "[env"* | "tests/presses: failed") continue ;;
        parallel*) command -v parallel >/dev/null || { echo "TESTING: no parallel, its block is skipped" >&2; continue; } ;;
        esac
        echo ". '$block' >'$work/out/$name' 2>&1; echo 'TESTING: block $name: ok'"
    done
} >"$work/session.sh"
(cd "$work/reader" && PATH="$work/bin:$PATH" sh "$work/session.sh")
status=$?
if [ $status != 0 ]; then
    last=$(find "$work/out" -type f | sort | tail -n 1)
    echo "TESTING: this block failed:"
    sed 's/^/    /' "$work/blocks/$(basename "$last")" "$last"
fi
check "the commands of the page" $status

# what the page quotes
output_of() { # TEXT: what the block with this text wrote
    found=$(grep -l -F -e "$1" "$work"/blocks/* | head -n 1)
    [ -n "$found" ] && cat "$work/out/$(basename "$found")"
}
quotes() { # NAME FILE: each line of a block is in the file
    while IFS= read -r line; do
        grep -q -x -F -e "$line" "$2" || { echo "TESTING: there is no line: $line"; return 1; }
    done <"$1"
}
output_of './test.sh || echo' >"$work/broken"
quotes "$(grep -l -x -F 'tests/presses: failed' "$work"/blocks/*)" "$work/broken"
check "what a failed test says" $?
grep -q '^    status 42: step 4, wait-serial' "$work/broken" && grep -q '^status 1$' "$work/broken"
check "what a failed scenario says" $?
cmp -s "$(grep -l -x -F '[env:uno]' "$work"/blocks/*)" "$here/examples/unit-tests/platformio.ini"
check "platformio.ini is that of the example" $?
output_of 'mudflatjar/examples/firmware-tests' | grep -q '^2 passed, 0 failed, in '
check "the first tests pass" $?
output_of 'expect-text "7"' | grep -q -x 'status 42'
check "a text that does not come is 42" $?
output_of 'unity.py' | grep -q '^4 Tests 0 Failures 0 Ignored'
check "the unit tests are read" $?
grep -l '^parallel' "$work"/blocks/* | while IFS= read -r block; do [ ! -f "$work/out/$(basename "$block")" ] || ls "$work"/reader/my-firmware/build/tests-4.xml; done >/dev/null
check "parallel's parts" $?
rise=$(output_of "awk '" | tail -n 1)
expected=$(awk '$2 == 1 { print $1; exit }' "$here/examples/button/expected/pin13.txt")
awk -v rise="$rise" -v ms="$expected" 'BEGIN { exit !(rise > 1000 * (ms - 0.5) && rise < 1000 * (ms + 0.5)) }'
check "the first rise of pin 13, $rise us" $?
output_of './mudflatjar decode' | grep -q '^i2c [0-9]* 0x4E nack$'
check "a byte of a bus" $?

# the CI jobs: each command of theirs, for each part, where arduino-cli builds as Debian's packages do
cat >"$work/arduino-cli" <<END
#!/bin/sh
case "\$1 \$2" in "core install" | "lib install") exit 0 ;; esac
[ "\$1 \$2 \$3 \$4" = "compile --fqbn arduino:avr:uno --output-dir" ] || { echo "not understood: \$*" >&2; exit 1; }
out=\$5
for sketch; do :; done
mkdir -p "\$out" && PATH='$PATH' "$here/tools/wokwi/sketch.py" "\$sketch" "\$out/sketch.ino.hex"
END
chmod +x "$work/arduino-cli"
for job in "$here"/examples/firmware-tests/.github/workflows/*.yml; do
    name=$(basename "$job" .yml)
    rm -f "$work/bin/arduino-cli"
    [ "$name" != arduino-cli ] || cp "$work/arduino-cli" "$work/bin/arduino-cli"
    for part in $(sed -n 's/^ *shard: \[\(.*\)\]$/\1/p' "$job" | tr -d , | grep . || echo 0); do
        rm -rf "$work/reader/ci"
        cp -r "$here/examples/firmware-tests" "$work/reader/ci"
        ln -s ../mudflatjar "$work/reader/ci/mudflatjar"
        sed -n 's/^ *- run: //p' "$job" | sed "s/\${{ matrix.shard }}/$part/" >"$work/job.sh"
        (cd "$work/reader/ci" && PATH="$work/bin:$PATH" sh -e "$work/job.sh") >"$work/job.log" 2>&1
        status=$?
        [ $status = 0 ] || cat "$work/job.log"
        check "the job $name, part $part" $status
        grep -q '<testsuite .*failures="0"' "$work/reader/ci/build/tests.xml"
        check "its JUnit file" $?
    done
done
exit $bad
