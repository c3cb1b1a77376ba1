#!/bin/bash
# Measures `run` with its wave, on a board of an Uno, a resistor and an LED, beside `bare` on the same firmware: the two of
# bare.sh, which change no pin, and the sketch of examples/arduino-blink, which blinks for an eye, over 160,000,000 cycles
# (10 s of simulated time), and the one of examples/blink, which moves pin 13 twice in six cycles, over 16,000,000. Then `check` on a project with the most parts and wires and a full flash.
# Prints seconds of processor time, the least of five runs in turn, and the ratio of the two. The program runs in 64 MiB of
# address space.
set -euo pipefail
here=$(cd "$(dirname "$0")" && pwd)
program=${PROGRAM:-$here/../target/mudflatjar}
blink=$here/../examples/blink
"$program" bare "$blink/blink.hex" --us 1 >/dev/null
folder=$(mktemp -d)
trap 'rm -rf "$folder"' EXIT

limited() ( ulimit -v 65536; exec "$program" "$@" )
seconds() { # of processor time of a command
    { TIMEFORMAT='%U + %S'; time "$@" >/dev/null; } 2>&1 | bc | sed 's/^\./0./'
}
least() { # of one number or two
    printf '%s\n' "$@" | sort -n | head -n 1
}
compare() { # NAME HEX MICROSECONDS
    local i now ours= bare=
    cp "$2" "$folder/blink.hex"
    for i in 1 2 3 4 5; do
        now=$(seconds limited bare "$2" --us "$3")
        bare=$(least $now $bare)
        now=$(seconds limited run "$folder" --us "$3" --vcd /dev/null)
        ours=$(least $now $ours)
    done
    echo "$1: run takes $ours s, bare $bare s; the ratio is $(echo "scale=2; $ours / $bare" | bc | sed 's/^\./0./')"
}

most() { # parts and wires
    awk 'BEGIN {
        print "{ \"version\": 1, \"author\": \"bench\", \"editor\": \"wokwi\", \"parts\": ["
        print "{ \"type\": \"wokwi-arduino-uno\", \"id\": \"uno\", \"top\": 0, \"left\": 0, \"attrs\": {} }"
        for (i = 1; i < 64; i++)
            printf ", { \"type\": \"wokwi-led\", \"id\": \"led%d\", \"top\": %d.4, \"left\": -9.6, \"attrs\": { \"color\": \"red\" } }\n", i, i
        print "], \"connections\": [ [ \"uno:GND.1\", \"led1:C\", \"black\", [ \"v0\" ] ]"
        for (i = 1; i < 512; i++)
            printf ", [ \"uno:%d\", \"led%d:%s\", \"green\", [ \"v%d.2\", \"*\", \"h-9.6\" ] ]\n", i / 8 % 14, i % 63 + 1, i % 2 ? "A" : "C", i
        print "], \"dependencies\": {} }"
    }'
}
full() { # 16,384 times `add r16, r17`
    local a
    for ((a = 0; a < 32768; a += 16)); do
        printf ':10%04X00%s%02X\n' $a 010F010F010F010F010F010F010F010F $((-(16 + (a >> 8) + (a & 255) + 128) & 255))
    done
    echo :00000001FF
}

cp "$blink/wokwi.toml" "$blink/diagram.json" "$folder"
compare spin "$here/spin.hex" 10000000
compare crc "$here/crc.hex" 10000000
compare arduino-blink "$here/../examples/arduino-blink/arduino-blink.hex" 10000000
compare blink "$blink/blink.hex" 1000000

most >"$folder/diagram.json"
full >"$folder/blink.hex"
[ "$(limited check "$folder")" = accepted ]
took=
for i in 1 2 3 4 5; do
    now=$(seconds limited check "$folder")
    took=$(least $now $took)
done
echo "check: 64 parts, 512 wires and 32 KiB of flash take $took s"
