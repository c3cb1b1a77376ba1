#!/bin/bash
# Measures `bare` beside simavr on firmwares that wait for timer 0, over 160,000,000 cycles (10 s of simulated time): the
# Arduino IDE's Blink, whose loop polls micros() between an interrupt each 1,024 us, sketches that wait in delay() and in
# calls of millis(), and a loop that sleeps in idle between the same interrupts. Prints seconds of processor time, the least of three runs, million cycles a second, and the
# ratio of the two. simavr is measured as a library, by bench/simavr_run.c, since its program waits for the time of
# day while the core sleeps.
set -eu
here=$(cd "$(dirname "$0")" && pwd)
program=${PROGRAM:-$here/../target/mudflatjar}
"$program" bare "$here/spin.hex" --us 1 >/dev/null

seconds() { # of a command, the least of three runs
    local best= s i
    for i in 1 2 3; do
        s=$( { TIMEFORMAT=%U; time "$@" >/dev/null 2>&1; } 2>&1 )
        if [ -z "$best" ] || [ "$(echo "$s < $best" | bc)" = 1 ]; then best=$s; fi
    done
    echo "$best"
}
bare() ( ulimit -v 65536; exec "$program" bare "$1" --us 10000000 )

work=$(mktemp -d)
trap 'rm -rf "$work"' EXIT
peer=
if cc -O2 -o "$work/simavr_run" "$here/simavr_run.c" -lsimavr 2>/dev/null; then peer=$work/simavr_run; fi
for firmware in "$here/../examples/arduino-blink/arduino-blink.hex" "$here/delay.hex" "$here/millis.hex" "$here/idle.hex"; do
    name=$(basename "$firmware" .hex)
    ours=$(seconds bare "$firmware")
    echo "$name: bare takes $ours s, $(echo "scale=1; 160 / $ours" | bc) million cycles a second, within 64 MiB"
    if [ -n "$peer" ]; then
        theirs=$(seconds "$peer" "$firmware" 160000000)
        echo "$name: simavr takes $theirs s, $(echo "scale=1; 160 / $theirs" | bc) million cycles a second; the ratio is $(echo "scale=2; $ours / $theirs" | bc)"
    else
        echo "$name: libsimavr is not installed (Debian's package libsimavr-dev), so not measured"
    fi
done
