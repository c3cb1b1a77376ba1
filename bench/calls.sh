#!/bin/bash
# Measures the interpreter of modules beside wabt's wasm-interp (Debian's package wabt, which this script needs) on three
# modules of bench/calls: a CRC-32 over 1 MiB of memory, an integer loop with locals and loads; a state machine whose steps
# are called through a table; and copies and fills of memory. The two run in turn, five pairs of runs, as a machine's speed
# changes from minute to minute. For each module it prints the ratio of each pair and the least of them, and of the
# quickest run of either the seconds of processor time and million units a second. A unit is an instruction, or 64 bytes
# that are copied or filled. At the end, the machine instructions that a unit of the CRC takes, where valgrind is installed,
# and the memory of the whole program.
set -eu
here=$(cd "$(dirname "$0")" && pwd)
folder=$(mktemp -d)
trap 'rm -rf "$folder"' EXIT

# The program that calls functions of modules: crates/rows_calls, built where it is missing.
program=$here/../crates/rows_calls/out/rows_calls
if [ ! -x "$program" ]; then
    (cd "$here/../crates/rows_calls" && rt run >"$folder/build.log" 2>&1 </dev/null) || true
    [ -x "$program" ] || { cat "$folder/build.log" >&2; exit 1; }
fi

seconds() { # of processor time of a command
    { TIMEFORMAT='%U + %S'; time "$@" >/dev/null 2>&1; } 2>&1 | bc | sed 's/^\./0./'
}

instructions() { # of the machine, that the program takes for so many units of the CRC
    printf '%s\n' crc.wasm "1 within $1" >units.txt
    valgrind --tool=callgrind --callgrind-out-file=/dev/null "$program" units.txt 2>&1 | awk '/Collected/ { print $4 }'
}

cd "$folder"
# The module, the number of its function, the units that a call takes, and its answer.
while read -r name function units answer; do
    wat2wasm --disable-multi-value --disable-reference-types "$here/calls/$name.wat" -o "$name.wasm"
    # With one unit less it traps.
    printf '%s\n' "$name.wasm" "$function within $units" >calls.txt
    printf '%s\n' "$name.wasm" "$function within $((units - 1))" >fewer.txt
    [ "$("$program" calls.txt | tail -n 1)" = "$function within $units: i32 $answer" ]
    [ "$("$program" fewer.txt | tail -n 1)" = "$function within $((units - 1)): trap 9" ]
    wasm-interp "$name.wasm" --run-all-exports | grep -qx "[a-z]*() => i32:$answer"
    : >pairs.txt
    for pair in 1 2 3 4 5; do
        ours=$(seconds "$program" calls.txt)
        theirs=$(seconds wasm-interp "$name.wasm" --run-all-exports)
        echo "$ours $theirs" >>pairs.txt
    done
    awk -v name="$name" -v units="$units" '
        function say(who, time) { printf "%s, %s: %.3f s, %.1f million units a second\n", name, who, time, units / time / 1e6 }
        { ratio = $2 / $1; all = all sprintf(" %.1f", ratio) }
        NR == 1 || $1 < ours { ours = $1 }
        NR == 1 || $2 < theirs { theirs = $2 }
        NR == 1 || ratio < least { least = ratio }
        END {
            say("the interpreter", ours)
            say("wasm-interp", theirs)
            printf "%s: times as fast as wasm-interp, pair by pair:%s; the least %.1f\n", name, all, least
        }' pairs.txt
done <<'END'
crc 1 158334982 2805525020
machine 5 83400008 2424207972
copies 0 150666585 2139062143
END
if command -v valgrind >/dev/null; then
    few=$(instructions 10000000)
    more=$(instructions 30000000)
    echo "crc: $(echo "scale=1; ($more - $few) / 20000000" | bc) machine instructions a unit"
fi
echo "in $(($( { /usr/bin/time -f %M "$program" calls.txt >/dev/null; } 2>&1 ) / 1024)) MiB"
