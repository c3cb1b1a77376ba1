#!/bin/bash
# Measures custom chips on a board, 16,000,000 cycles (1 s of simulated time) each, beside the same board without them:
# - pin.hex moves pin 13 each two or three cycles, and a chip has a watch on both edges there, whose callback counts;
# - the same with the inverter of the examples, which writes a pin at each call;
# - an Uno whose core is halted, and a chip with a timer of 1 microsecond, whose callback counts;
# - the same with eight such chips;
# - the same with eight chips of 64 pages each that nothing happens to.
# Prints seconds of processor time, the least of three runs in turn, and the nanoseconds that a callback takes more than the
# board alone. The program runs in 128 MiB of address space. It wants clang and wasm-ld. PROGRAM=FILE before the script
# measures another program.
set -euo pipefail
here=$(cd "$(dirname "$0")" && pwd)
# shellcheck source-path=SCRIPTDIR
. "$here/boards.sh"
program=${PROGRAM:-$here/../target/mudflatjar}
"$program" bare "$here/pin.hex" --us 1 >/dev/null
folder=$(mktemp -d)
trap 'rm -rf "$folder"' EXIT
cd "$folder"

limited() ( ulimit -v 131072; exec "$program" "$@" )
seconds() { # of processor time of a command
    { TIMEFORMAT='%U + %S'; time "$@" >/dev/null 2>&1; } 2>&1 | bc | sed 's/^\./0./'
}
chip watch
chip timer
chip idle -Wl,--initial-memory=4194304
cp "$here/../examples/chip-inverter/inverter.wasm" .
echo '{ "name": "It", "pins": ["IN", "OUT"] }' >inverter.json
board pin pin -
board watch pin watch 'chip-it c1' 'uno:13 c1:A'
board inverter pin inverter 'chip-it c1' 'uno:13 c1:IN'
board still - -
board timer - timer 'chip-it c1'
board timers - timer "$(parts 8 chip-it c)"
board idle - idle "$(parts 8 chip-it c)" "$(wires 8 uno:13 c A)"

names=(pin watch inverter still timer timers idle)
what=("pin 13 moves" "the same, and a chip watches it" "the same, and an inverter" "a halted core" "a timer of 1 us" "eight of them" "eight idle chips of 64 pages")
calls=(0 5320000 5320000 0 1000000 8000000 0)
beside=(0 0 0 3 3 3 3)
declare -a best
for _ in 1 2 3; do
    for i in "${!names[@]}"; do
        now=$(seconds limited run "${names[$i]}" --us 1000000)
        best[i]=$(printf '%s\n' "$now" "${best[i]:-$now}" | sort -n | head -n 1)
    done
done
for i in "${!names[@]}"; do
    line="${what[$i]}: ${best[$i]} s"
    if [ "${calls[$i]}" -gt 0 ]; then
        line="$line, $(echo "scale=0; (${best[$i]} - ${best[${beside[$i]}]}) * 1000000000 / ${calls[$i]}" | bc) ns a callback"
    fi
    echo "$line"
done
