#!/bin/bash
# Measures `bare` beside simavr on two firmwares whose bits go over wires all the time: bytes by SPI at 8 MHz, and addresses by
# TWI at 400 kHz. Over 16,000,000 cycles (1 s of simulated time) it prints seconds of processor time, the least of three runs
# each, million cycles a second, and the ratio of the two. The wave of each pin is written too, and thrown away. simavr writes
# none and puts no bits on its pins: a byte of its SPI takes 100 us at every rate, an action of its TWI some cycles.
set -eu
here=$(cd "$(dirname "$0")" && pwd)
program=${PROGRAM:-$here/../target/mudflatjar}
"$program" bare "$here/spin.hex" --us 1 >/dev/null

seconds() { # of a command, the least of three runs
    local best= s i
    for i in 1 2 3; do
        s=$( { TIMEFORMAT=%U; time "$@" >/dev/null 2>&1; } 2>&1 )
        if [ -z "$best" ] || [ "$(echo "$s < $best" | bc)" = 1 ]; then best=$s; fi
    done
    echo "$best"
}
# rises of a pin in the wave on standard input
rises() { # PIN
    awk -v pin="uno.$1" '$5 == pin { code = $4 } /^1/ && substr($0, 2) == code { n++ } END { print n + 0 }'
}

work=$(mktemp -d)
trap 'rm -rf "$work"' EXIT
peer=
if cc -O2 -o "$work/simavr_run" "$here/simavr_run.c" -lsimavr 2>/dev/null; then peer=$work/simavr_run; fi
for name in spi twi; do
    ours=$(seconds "$program" bare "$here/$name.hex" --us 1000000)
    case $name in
        spi) bits="$("$program" bare "$here/spi.hex" --us 10000 | rises 13) rises of SCK" ;;
        twi) bits="$("$program" bare "$here/twi.hex" --us 10000 | rises A5) rises of SCL" ;;
    esac
    echo "$name: bare takes $ours s, $(echo "scale=1; 16 / $ours" | bc) million cycles a second; $bits in 10 ms"
    if [ -n "$peer" ]; then
        theirs=$(seconds "$peer" "$here/$name.hex" 16000000)
        echo "$name: simavr takes $theirs s, $(echo "scale=1; 16 / $theirs" | bc) million cycles a second; the ratio is $(echo "scale=2; $ours / $theirs" | bc)"
    else
        echo "$name: libsimavr is not installed (Debian's package libsimavr-dev), so not measured"
    fi
done
