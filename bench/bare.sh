#!/bin/bash
# Measures `bare` beside simavr on two firmwares that change no pin, over 160,000,000 cycles (10 s of simulated time):
# a loop that counts down, and a CRC over SRAM; and alone on a flash full of additions, which wrap round. Prints seconds of
# processor time, which other work on the machine changes less than the time of day, million cycles a second, and the ratio
# of the two. The program runs in 64 MiB of address space.
# simavr is measured twice: its own program, which calls avr_run for each instruction, and as a library that does up to
# 100,000 cycles in a call (run_cycle_limit), by bench/simavr_run.c. QEMU, a compiler that counts no cycles, runs the CRC:
# asleep it takes no processor time, so it is stopped after 10 s. They are Debian's packages simavr, libsimavr-dev and
# qemu-system-misc; what is missing is not measured.
set -eu
here=$(cd "$(dirname "$0")" && pwd)
program=${PROGRAM:-$here/../target/mudflatjar}
"$program" bare "$here/spin.hex" --us 1 >/dev/null

seconds() { # of a command, the least of three runs
    local best= s i
    for i in 1 2 3; do
        s=$( { TIMEFORMAT=%U; time "$@" >/dev/null 2>&1; } 2>&1 )
        if [ -z "$best" ] || [ "$(echo "$s < $best" | bc)" = 1 ]; then best=$s; fi
    done
    echo "$best"
}
bare() ( ulimit -v 65536; exec "$program" bare "$1" --us 10000000 )

straight() { # 16,384 times `add r16, r17`, one cycle each
    local a
    for ((a = 0; a < 32768; a += 16)); do
        printf ':10%04X00%s%02X\n' $a 010F010F010F010F010F010F010F010F $((-(16 + (a >> 8) + (a & 255) + 128) & 255))
    done
    echo :00000001FF
}

qemu() { timeout 10 qemu-system-avr -M arduino-uno -bios "$1" -display none -serial none -monitor none || true; }
beside() { # FIRMWARE NAME COMMAND..: measures another beside `bare`
    local firmware=$1 name=$2 theirs
    shift 2
    theirs=$(seconds "$@")
    echo "$firmware: $name takes $theirs s, $(echo "scale=1; 160 / $theirs" | bc) million cycles a second; the ratio is $(echo "scale=2; $ours / $theirs" | bc)"
}

work=$(mktemp -d)
trap 'rm -rf "$work"' EXIT
straight >"$work/straight.hex"
ours=$(seconds bare "$work/straight.hex")
echo "straight: bare takes $ours s, $(echo "scale=1; 160 / $ours" | bc) million cycles and instructions a second"
library=
if cc -O2 -o "$work/simavr_run" "$here/simavr_run.c" -lsimavr 2>/dev/null; then library=$work/simavr_run; fi
for firmware in spin crc; do
    hex=$here/$firmware.hex
    ours=$(seconds bare "$hex")
    echo "$firmware: bare takes $ours s, $(echo "scale=1; 160 / $ours" | bc) million cycles a second, within 64 MiB"
    if command -v simavr >/dev/null; then
        beside $firmware "simavr's program" simavr -m atmega328p -f 16000000 "$hex"
    else
        echo "$firmware: simavr is not installed (Debian's package simavr), so not measured"
    fi
    if [ -n "$library" ]; then beside $firmware "simavr's library" "$library" "$hex" 160000000 100000; fi
done
if command -v qemu-system-avr >/dev/null && command -v avr-objcopy >/dev/null; then
    avr-objcopy -I ihex -O binary "$here/crc.hex" "$work/crc.bin"
    beside crc QEMU qemu "$work/crc.bin"
else
    echo "crc: QEMU is not installed (Debian's packages qemu-system-misc and binutils-avr), so not measured"
fi
