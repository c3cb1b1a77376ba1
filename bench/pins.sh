#!/bin/bash
# Measures boards on which pins move, beside simavr (Debian's package) where it is there:
# - pin.hex, which moves pin 13 5,320,000 times in 16,000,000 cycles: `bare` with its wave to /dev/null and to a file, simavr
#   with that pin as a VCD (avr-gcc makes the firmware that asks for it);
# - the same on a board of an Uno and an LED, and beside them 62 LEDs that nothing happens to;
# - tick.hex, asleep but for an interrupt of timer 0 each millisecond, 160,000,000 cycles (10 s);
# - toggle.hex, asleep, whose pin 6 a timer moves every 262,144 cycles, with 63 LEDs on that pin, 10 s.
# Prints seconds of processor time, the least of five runs in turn. The program runs in 64 MiB of address space. PROGRAM=FILE
# before the script measures another program.
set -euo pipefail
here=$(cd "$(dirname "$0")" && pwd)
# shellcheck source-path=SCRIPTDIR
. "$here/boards.sh"
program=${PROGRAM:-$here/../target/mudflatjar}
"$program" bare "$here/pin.hex" --us 1 >/dev/null
folder=$(mktemp -d)
trap 'rm -rf "$folder"' EXIT
cd "$folder"

limited() ( ulimit -v 65536; exec "$program" "$@" )
seconds() { # of processor time of a command
    { TIMEFORMAT='%U + %S'; time "$@" >/dev/null 2>&1; } 2>&1 | bc | sed 's/^\./0./'
}
to_file() { limited bare "$here/pin.hex" --us 1000000 >wave.vcd; }
null() { limited bare "$here/$1.hex" --us "$2"; }
on_board() { limited run "$1" --us "$2" --vcd /dev/null; }
traced() { simavr pin.elf; }
untraced() { simavr -m atmega328p -f 16000000 "$here/$1.hex"; }

leds=$(parts 63 wokwi-led l)
board led pin - 'wokwi-led l1' $'uno:GND.1 l1:C\nuno:13 l1:A'
board idle pin - "$leds" "$(cathodes 63)"$'\nuno:13 l1:A\n'"$(wires 63 uno:2 l A | tail -n +2)"
board row toggle - "$leds" "$(cathodes 63)"$'\n'"$(wires 63 uno:6 l A)"

what=("bare, pin 13, wave to /dev/null" "bare, pin 13, wave to a file" "run, an LED on pin 13" "run, an LED on pin 13 and 62 on pin 2" "bare, asleep but for 1,000 interrupts a second" "run, 63 LEDs on pin 6, 10 s")
runs=("null pin 1000000" "to_file" "on_board led 1000000" "on_board idle 1000000" "null tick 10000000" "on_board row 10000000")
if command -v simavr >/dev/null; then
    what+=("simavr, pin 13, no wave" "simavr, asleep but for 1,000 interrupts a second")
    runs+=("untraced pin" "untraced tick")
    if command -v avr-gcc >/dev/null && avr-gcc -DTRACE -mmcu=atmega328p -Os -Wl,--undefined=_mmcu,--section-start=.mmcu=0x910000 -o pin.elf "$here/pin.c" 2>/dev/null; then
        what+=("simavr, pin 13, its VCD to a file")
        runs+=("traced")
    fi
else
    echo "simavr is not installed (Debian's package simavr), so not measured" >&2
fi
declare -a best
for _ in 1 2 3 4 5; do
    for i in "${!runs[@]}"; do
        # shellcheck disable=SC2086 # a command with its words
        now=$(seconds ${runs[$i]})
        best[i]=$(printf '%s\n' "$now" "${best[i]:-$now}" | sort -n | head -n 1)
    done
done
for i in "${!runs[@]}"; do
    echo "${what[$i]}: ${best[$i]} s"
done
