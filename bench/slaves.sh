#!/bin/bash
# Measures chips with engines on a board, 16,000,000 cycles (1 s of simulated time) each, beside the same board without them:
# - read.hex reads by TWI at 400 kHz without a pause, from a chip whose callback counts; alone it calls the address again and again;
# - spi.hex sends bytes by SPI at 8 MHz without a pause, and a chip exchanges 32,768 at a time;
# - print-2000000.hex prints at 2,000,000 baud without a pause, and a chip takes each byte.
# Prints seconds of processor time, the least of three runs in turn, and the ratio to the board alone. It wants clang and wasm-ld.
# PROGRAM=FILE before the script measures another program.
set -euo pipefail
here=$(cd "$(dirname "$0")" && pwd)
# shellcheck source-path=SCRIPTDIR
. "$here/boards.sh"
program=${PROGRAM:-$here/../target/mudflatjar}
"$program" bare "$here/spi.hex" --us 1 >/dev/null
folder=$(mktemp -d)
trap 'rm -rf "$folder"' EXIT
cd "$folder"

seconds() { # of processor time of a command
    { TIMEFORMAT='%U + %S'; time "$@" >/dev/null 2>&1; } 2>&1 | bc | sed 's/^\./0./'
}
for name in i2c spi uart; do chip "$name"; done
board i2c-alone read -
board i2c read i2c 'chip-it c' $'uno:A5 c:A\nuno:A4 c:B'
board spi-alone spi -
board spi spi spi 'chip-it c' $'uno:13 c:A\nuno:11 c:B\nuno:12 c:C'
board uart-alone print-2000000 -
board uart print-2000000 uart 'chip-it c' 'uno:1 c:A'

names=(i2c-alone i2c spi-alone spi uart-alone uart)
declare -A best
for _ in 1 2 3; do
    for name in "${names[@]}"; do
        now=$(seconds "$program" run "$name" --us 1000000)
        best[$name]=$(printf '%s\n' "$now" "${best[$name]:-$now}" | sort -n | head -n 1)
    done
done
for name in i2c spi uart; do
    echo "$name: ${best[$name]} s, alone ${best[$name-alone]} s, $(echo "scale=2; ${best[$name]} / ${best[$name-alone]}" | bc) times"
done
