#!/bin/bash
# Measures `twin` of a folder and a copy of it beside `run` of the folder, and `run` of the same board without its chips: on the
# board of chips.sh pin.hex moves pin 13 each two or three cycles, and the inverter of the examples follows.
# Prints seconds of processor time, the least of five runs in turn, and the ratio of `twin` to `run` and the second chip's own
# callbacks, which are what `run` takes more with the chip than without. The program runs in 256 MiB of address space.
# PROGRAM=FILE before the script measures another program.
set -euo pipefail
here=$(cd "$(dirname "$0")" && pwd)
program=${PROGRAM:-$here/../target/mudflatjar}
"$program" bare "$here/pin.hex" --us 1 >/dev/null
folder=$(mktemp -d)
trap 'rm -rf "$folder"' EXIT
cd "$folder"

limited() ( ulimit -v 262144; exec "$program" "$@" )
seconds() { # of processor time of a command
    { TIMEFORMAT='%U + %S'; time "$@" >/dev/null 2>&1; } 2>&1 | bc | sed 's/^\./0./'
}
least() { # of one number or two
    printf '%s\n' "$@" | sort -n | head -n 1
}
mkdir with without
for name in with without; do
    cp "$here/pin.hex" $name/firmware.hex
    printf "[wokwi]\nversion = 1\nfirmware = 'firmware.hex'\n" >$name/wokwi.toml
done
printf "[[chip]]\nname = 'inverter'\nbinary = 'inverter.wasm'\n" >>with/wokwi.toml
cp "$here/../examples/chip-inverter/inverter.wasm" "$here/../examples/chip-inverter/inverter.json" with
cat >with/diagram.json <<'JSON'
{ "version": 1, "author": "bench", "editor": "wokwi",
  "parts": [ { "type": "wokwi-arduino-uno", "id": "uno", "attrs": {} }, { "type": "chip-inverter", "id": "inv1", "attrs": {} } ],
  "connections": [ [ "uno:13", "inv1:IN", "green", [] ] ] }
JSON
cat >without/diagram.json <<'JSON'
{ "version": 1, "author": "bench", "editor": "wokwi", "parts": [ { "type": "wokwi-arduino-uno", "id": "uno", "attrs": {} } ], "connections": [] }
JSON
cp -r with copy
us=1000000
[ "$(limited twin with copy --us $us)" = "same for $((16 * us)) cycles" ]

both= one= none=
for i in 1 2 3 4 5; do
    now=$(seconds limited twin with copy --us $us); both=$(least $now $both)
    now=$(seconds limited run with --us $us); one=$(least $now $one)
    now=$(seconds limited run without --us $us); none=$(least $now $none)
done
echo "$us microseconds: twin takes $both s, run $one s, run without the chip $none s"
echo "the ratio of twin to run and the second chip's callbacks is $(echo "scale=2; $both / (2 * $one - $none)" | bc | sed 's/^\./0./')"
