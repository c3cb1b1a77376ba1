#!/bin/bash
# Measures `run` beside simavr on sketches that print without a pause at 115,200 and at 2,000,000 baud, over 160,000,000
# cycles (10 s of simulated time); both write the bytes that are sent. Prints seconds of processor time, the least of
# three runs of each in turn, the bytes, and the ratio of the times. simavr is measured as a library, by
# bench/simavr_run.c, since its program waits for the time of day while firmware polls the USART.
# examples/arduino.sh builds the HEX files from print.ino.
set -eu
here=$(cd "$(dirname "$0")" && pwd)
program=${PROGRAM:-$here/../target/mudflatjar}
"$program" bare "$here/spin.hex" --us 1 >/dev/null
work=$(mktemp -d)
trap 'rm -rf "$work"' EXIT
peer=
if cc -O2 -o "$work/simavr_run" "$here/simavr_run.c" -lsimavr 2>/dev/null; then peer=$work/simavr_run; fi
echo '{"version": 1, "parts": [{"type": "wokwi-arduino-uno", "id": "uno"}], "connections": []}' >"$work/diagram.json"
printf '[wokwi]\nversion = 1\nfirmware = "print.hex"\n' >"$work/wokwi.toml"

seconds() { # FILE OF ITS OUTPUT, COMMAND
    local out=$1
    shift
    { TIMEFORMAT=%U; time "$@" >"$out" 2>/dev/null; } 2>&1
}
less() { # the lesser of two numbers, of which the first may be missing
    if [ -z "$1" ] || [ "$(echo "$2 < $1" | bc)" = 1 ]; then echo "$2"; else echo "$1"; fi
}
for baud in 115200 2000000; do
    cp "$here/print-$baud.hex" "$work/print.hex"
    ours= theirs=
    for i in 1 2 3; do
        ours=$(less "$ours" "$(seconds "$work/ours" "$program" run "$work" --us 10000000)")
        [ -z "$peer" ] || theirs=$(less "$theirs" "$(seconds "$work/theirs" "$peer" "$work/print.hex" 160000000)")
    done
    echo "$baud baud: run takes $ours s for $(wc -c <"$work/ours") bytes"
    if [ -n "$peer" ]; then
        echo "$baud baud: simavr takes $theirs s for $(wc -c <"$work/theirs") bytes; the ratio is $(echo "scale=2; $ours / $theirs" | bc)"
        n=$(($(wc -c <"$work/ours") < $(wc -c <"$work/theirs") ? $(wc -c <"$work/ours") : $(wc -c <"$work/theirs")))
        cmp -s -n "$n" "$work/ours" "$work/theirs" || echo "$baud baud: the bytes differ"
    else
        echo "$baud baud: libsimavr is not installed (Debian's package libsimavr-dev), so not measured"
    fi
done
