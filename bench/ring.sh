#!/bin/bash
# Measures boards on which nets change in every cycle, 16,000,000 cycles each, beside an Uno whose core is halted:
# - two inverters in a ring, both of which are woken in each cycle, without a wave and with one to /dev/null;
# - the same with 61 LEDs on nets that never change.
# Prints seconds of processor time, the least of three runs in turn, and million cycles a second. The program runs in 64 MiB of
# address space. PROGRAM=FILE before the script measures another program.
set -euo pipefail
here=$(cd "$(dirname "$0")" && pwd)
# shellcheck source-path=SCRIPTDIR
. "$here/boards.sh"
program=${PROGRAM:-$here/../target/mudflatjar}
"$program" bare "$here/pin.hex" --us 1 >/dev/null
folder=$(mktemp -d)
trap 'rm -rf "$folder"' EXIT
cd "$folder"

limited() ( ulimit -v 65536; exec "$program" "$@" )
seconds() { # of processor time of a command
    { TIMEFORMAT='%U + %S'; time "$@" >/dev/null 2>&1; } 2>&1 | bc | sed 's/^\./0./'
}
gates=$'wokwi-gate-not a\nwokwi-gate-not b'
round=$'a:OUT b:IN\nb:OUT a:IN'
board ring - - "$gates" "$round"
board leds - - "$gates"$'\n'"$(parts 61 wokwi-led l)" "$round"$'\n'"$(wires 61 uno:2 l A)"
plain() { limited run ring --us 1000000; }
wave() { limited run ring --us 1000000 --vcd /dev/null; }
leds() { limited run leds --us 1000000; }

what=("a ring of two gates" "the same, wave to /dev/null" "the same without a wave, 61 LEDs beside it")
runs=(plain wave leds)
declare -a best
for _ in 1 2 3; do
    for i in "${!runs[@]}"; do
        # shellcheck disable=SC2086 # a command with its words
        now=$(seconds ${runs[$i]})
        best[i]=$(printf '%s\n' "$now" "${best[i]:-$now}" | sort -n | head -n 1)
    done
done
for i in "${!runs[@]}"; do
    echo "${what[$i]}: ${best[$i]} s, $(echo "scale=2; 16 / ${best[$i]}" | bc) million cycles a second"
done
