#!/bin/bash
# Measures `replay` of a wave beside the `run` that wrote it, and how long reading a wave takes. The board is that of chips.sh on
# which pin.hex moves pin 13 each two or three cycles and the inverter of the examples follows; it runs for as long as its wave
# has just under 16 MiB, the most that `replay` reads. Then the same wave without its last line is read and refused (94), which is
# all that is done with it.
# Prints seconds of processor time, the least of five runs in turn. The program runs in 256 MiB of address space.
# PROGRAM=FILE before the script measures another program.
set -euo pipefail
here=$(cd "$(dirname "$0")" && pwd)
program=${PROGRAM:-$here/../target/mudflatjar}
"$program" bare "$here/pin.hex" --us 1 >/dev/null
folder=$(mktemp -d)
trap 'rm -rf "$folder"' EXIT
cd "$folder"

limited() ( ulimit -v 262144; exec "$program" "$@" )
seconds() { # of processor time of a command
    { TIMEFORMAT='%U + %S'; time "$@" >/dev/null 2>&1; } 2>&1 | bc | sed 's/^\./0./'
}
least() { # of one number or two
    printf '%s\n' "$@" | sort -n | head -n 1
}
cp "$here/pin.hex" firmware.hex
cp "$here/../examples/chip-inverter/inverter.wasm" "$here/../examples/chip-inverter/inverter.json" .
cat >wokwi.toml <<'TOML'
[wokwi]
version = 1
firmware = 'firmware.hex'
[[chip]]
name = 'inverter'
binary = 'inverter.wasm'
TOML
cat >diagram.json <<'JSON'
{ "version": 1, "author": "bench", "editor": "wokwi",
  "parts": [ { "type": "wokwi-arduino-uno", "id": "uno", "attrs": {} }, { "type": "chip-inverter", "id": "inv1", "attrs": {} } ],
  "connections": [ [ "uno:13", "inv1:IN", "green", [] ] ] }
JSON

limited run . --us 1000 --vcd wave.vcd
us=$((1000 * 14500000 / $(stat -c %s wave.vcd))) # the times of a longer wave have more digits
limited run . --us $us --vcd wave.vcd
limited replay . wave.vcd --us $us --vcd played.vcd
cmp wave.vcd played.vcd
size=$(stat -c %s wave.vcd)
head -n -1 wave.vcd >cut.vcd

run= play= silent= read=
for i in 1 2 3 4 5; do
    now=$(seconds limited run . --us $us --vcd wave.vcd); run=$(least $now $run)
    now=$(seconds limited replay . wave.vcd --us $us --vcd played.vcd); play=$(least $now $play)
    now=$(seconds limited replay . wave.vcd --us $us); silent=$(least $now $silent)
    now=$(seconds limited replay . cut.vcd --us $us || true); read=$(least $now $read)
done
echo "$us microseconds with a wave of $size bytes: run takes $run s, replay $play s, without a wave of its own $silent s; reading the wave alone $read s"
echo "the ratio of replay to run is $(echo "scale=2; $play / $run" | bc | sed 's/^\./0./')"
