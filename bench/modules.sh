#!/bin/bash
# Measures the processor time and the memory that it takes to decode and validate modules of a half and of one MiB, beside
# wasm-validate (Debian's package wabt, which this script needs). A module has thousands of functions whose bodies have constants,
# accesses to memory, blocks, branches and calls.
set -eu
here=$(cd "$(dirname "$0")" && pwd)
folder=$(mktemp -d)
trap 'rm -rf "$folder"' EXIT

# The program that says whether a file is an accepted module: crates/rows_modules, built where it is missing.
program=$here/../crates/rows_modules/out/rows_modules
if [ ! -x "$program" ]; then
    (cd "$here/../crates/rows_modules" && rt run >"$folder/build.log" 2>&1 </dev/null) || true
    [ -x "$program" ] || { cat "$folder/build.log" >&2; exit 1; }
fi

text() { # of a module of so many functions
    awk -v count="$1" 'BEGIN {
        print "(module (memory 1) (global $g (mut i64) (i64.const 0)) (func (export \"chipInit\"))"
        for (f = 1; f < count; f++) {
            print "(func (param i32 i32) (result i32) (local i32 i64)"
            for (i = 0; i < 5; i++) {
                printf "local.get 0 i32.const %d i32.add local.tee 2 i32.load offset=%d ", f * 7919, f
                printf "local.get 1 i32.xor local.set 0 "
                printf "block loop local.get 2 br_if 1 local.get 0 i32.eqz br_if 0 end end "
                printf "local.get 3 i64.const %d i64.mul global.get $g i64.add global.set $g ", f * 104729
                if (f > 1) printf "local.get 0 local.get 1 call %d local.set 1 ", f - 1
            }
            print "local.get 0)"
        }
        print ")"
    }'
}

seconds() { # of processor time of a command, the least of five runs
    local i
    for i in 1 2 3 4 5; do
        { TIMEFORMAT='%U + %S'; time "$@" >/dev/null 2>&1; } 2>&1 | bc
    done | sort -n | head -n 1 | sed 's/^\./0./'
}

for count in 1780 3560; do
    text $count >"$folder/module.wat"
    wat2wasm "$folder/module.wat" -o "$folder/module.wasm"
    [ "$("$program" "$folder/module.wasm")" = "$folder/module.wasm: accepted" ]
    ours=$(seconds "$program" "$folder/module.wasm")
    theirs=$(seconds wasm-validate "$folder/module.wasm")
    memory=$( { /usr/bin/time -f %M "$program" "$folder/module.wasm" >/dev/null; } 2>&1 )
    echo "$(stat -c %s "$folder/module.wasm") bytes: $ours s and $((memory / 1024)) MiB, wasm-validate $theirs s;" \
        "the ratio is $(echo "scale=2; $ours / $theirs" | bc)"
done
