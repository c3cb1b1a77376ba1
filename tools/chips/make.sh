#!/bin/sh
# Makes the modules of crates/rows_chips: those of the texts here with wat2wasm, and those of the examples. Then the modules of
# crates/sim_rows: those of the sources here in C, the twins of the examples, those that have a text beside them, and what both
# have; the inverter and the counter of the examples without optimisation; and the inverter by clang for the first version of the
# standard, with a memory that is imported and with the names and producers that the linker leaves.
here=$(cd "$(dirname "$0")" && pwd)
top=$here/../..
data=$top/crates/rows_chips/data
runs=$top/crates/sim_rows/data
assemble() {
    wat2wasm --disable-multi-value --disable-reference-types "$1" -o "$2/$(basename "$1" .wat).wasm" || exit 1
}
for text in "$here"/*.wat; do
    assemble "$text" "$data"
done
for name in inverter blinker counter; do
    cp "$top/examples/chip-$name/$name.wasm" "$data/clang-$name.wasm"
done
for source in "$here"/*.c; do
    "$top/sdk/build.sh" -o "$runs/$(basename "$source" .c).wasm" "$source" || exit 1
    chmod a-x "$runs/$(basename "$source" .c).wasm"
done
for name in by-table without-its-third-write; do
    cp "$top/examples/twin/$name/inverter.wasm" "$runs/inverter-$name.wasm"
done
for text in "$runs"/*.wat; do
    assemble "$text" "$runs"
done
for name in start-loops init-calls-itself grows-and-stores name-at-the-end name-of-64-bytes pin-init-in-a-callback timer-33 \
    callback-beyond-the-table callback-that-is-no-entry callback-of-another-type division-by-zero timer-of-0-ns-again-and-again \
    callback-that-loops callback-0 ids-that-were-not-given delays-of-three-timers inverter-imports-its-memory clang-blinker \
    clang-counter clang-inverter; do
    cp "$data/$name.wasm" "$runs"
done
# a section without a name, for 1,048,384 bytes that are not here
{ cat "$runs/inverter.wasm" && printf '\000\301\376\077\000'; } >"$runs/inverter-and-a-long-section.wasm" || exit 1
for name in inverter counter; do
    "$top/sdk/build.sh" -O0 -o "$runs/clang-$name-O0.wasm" "$top/examples/chip-$name/$name.c" || exit 1
    chmod a-x "$runs/clang-$name-O0.wasm"
done
clang --target=wasm32 -mcpu=mvp -O2 -Wall -Wextra -ffreestanding -nostdlib -I"$top/sdk" \
    -Wl,--no-entry,--export-table,--import-memory,-z,stack-size=8192 \
    -o "$runs/clang-inverter-imports-its-memory.wasm" "$top/examples/chip-inverter/inverter.c" || exit 1
chmod a-x "$runs/clang-inverter-imports-its-memory.wasm"
