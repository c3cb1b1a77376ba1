#!/bin/sh
# made.sh SEED FOLDER: writes the project that `make SEED` generates as files of a folder, so that `run` has the same board,
# whose wave and bytes are what `make` counts.
seed=$1 folder=$2
mkdir -p "$folder" || exit 1
printf "[wokwi]\nversion = 1\nfirmware = 'make.hex'\n[[chip]]\nname = 'inverter'\nbinary = 'inverter.wasm'\n" >"$folder/wokwi.toml"
echo '{ "name": "Inverter", "author": "made", "pins": ["IN", "OUT"] }' >"$folder/inverter.json"

# LDI r16, 255; OUT DDRB, r16 and OUT DDRD, r16; 64 times LDI r16 and OUT PORTB or PORTD; RJMP to the first of these
awk -v x="$seed" '
    function draw() { x = (1664525 * x + 1013904223) % 4294967296; return int(x / 65536) }
    function word(high, low) { bytes[n++] = low; bytes[n++] = high }
    function byte(value) { sum += value; line = line sprintf("%02X", value) }
    BEGIN {
        draw(); draw()
        word(239, 15); word(185, 4); word(185, 10)
        for (j = 0; j < 64; j++) {
            k = draw() % 256
            word(224 + int(k / 16), k % 16)
            word(185, j % 2 ? 11 : 5)
        }
        word(207, 127)
        for (at = 0; at < n; at += 16) {
            line = ":"; sum = 0; size = n - at < 16 ? n - at : 16
            byte(size); byte(int(at / 256)); byte(at % 256); byte(0)
            for (i = 0; i < size; i++) byte(bytes[at + i])
            printf "%s%02X\n", line, (256 - sum % 256) % 256
        }
        print ":00000001FF"
    }' >"$folder/make.hex"

awk -v x="$seed" '
    function draw() { x = (1664525 * x + 1013904223) % 4294967296; return int(x / 65536) }
    function part(kind, id) { printf "%s\n  { \"type\": \"%s\", \"id\": \"%s\", \"attrs\": {} }", more, kind, id; more = "," }
    function wire(from, to) { printf "%s\n  [ \"%s\", \"%s\", \"\", [] ]", more, from, to; more = "," }
    BEGIN {
        p = 2 + draw() % 8; q = 2 + draw() % 8
        printf "{ \"version\": 1, \"author\": \"made\", \"editor\": \"wokwi\", \"parts\": ["
        part("wokwi-arduino-uno", "uno")
        for (k = 2; k < 10; k++) { part("wokwi-resistor", "r" k); part("wokwi-led", "led" k) }
        part("chip-inverter", "inv1"); part("chip-inverter", "inv2"); part("wokwi-gate-xor-2", "x1")
        printf "\n], \"connections\": ["
        more = ""
        for (k = 2; k < 10; k++) { wire("uno:" k, "r" k ":1"); wire("r" k ":2", "led" k ":A"); wire("led" k ":C", "uno:GND.1") }
        wire("uno:" p, "inv1:IN"); wire("uno:" q, "inv2:IN")
        wire("inv1:OUT", "x1:A"); wire("inv2:OUT", "x1:B"); wire("x1:OUT", "uno:A0")
        print "\n] }"
    }' >"$folder/diagram.json"

cp "$(dirname "$0")/../../crates/sim_rows/data/inverter.wasm" "$folder/inverter.wasm"
