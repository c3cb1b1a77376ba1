#!/bin/bash
# Counts the machine instructions that the program takes for a cycle, a move of a pin or a callback, by callgrind (Debian's
# package valgrind), as the difference of two runs of other lengths. Such counts do not depend on the machine's speed, nor on
# what else runs. It prints today's figures beside the kept ones of instructions.txt, names what got dearer by more than 1 %,
# and ends with 1 if anything did.
#   instructions.sh [OPTION..] [WORD..]   all, or those whose name begins with one of the words
#   --than COMMIT   compares with the figures of that commit, else with the last ones
#   --keep COMMIT   puts today's figures into instructions.txt, as those of this commit
#   --kept FILE     has the kept figures in this file
#   --from FILE     takes today's figures from a file of lines `NAME PER NUMBER`, as it says them on standard error
# Kept figures are of proved programs: a program that `rt try` compiles has other counts. The chips need clang and wasm-ld.
# The lines of simavr say what it takes for a cycle of the same firmware, and need cc and Debian's package libsimavr-dev:
# simavr-NAME where it does an instruction in each call of avr_run, as its own program has it, and simavr-long-NAME where it
# does up to 100,000 cycles in a call (run_cycle_limit).
# PROGRAM=FILE before the script counts another program.
set -euo pipefail
here=$(cd "$(dirname "$0")" && pwd)
# shellcheck source-path=SCRIPTDIR
. "$here/boards.sh"
kept=$here/instructions.txt
keep='' than='' from=''
while [ $# -gt 0 ]; do
    case $1 in
    --than | --keep | --kept | --from)
        [ $# -gt 1 ] || { sed -n '2,/^set/s/^# *//p' "$0" >&2; exit 2; }
        printf -v "${1#--}" %s "$2"
        shift 2
        ;;
    -*) sed -n '2,/^set/s/^# *//p' "$0" >&2; exit 2 ;;
    *) break ;;
    esac
done
words=("$@")
kept=$(realpath "$kept")
from=${from:+$(realpath "$from")}
program=$(realpath -m "${PROGRAM:-$here/../target/mudflatjar}")
folder=$(mktemp -d)
trap 'rm -rf "$folder"' EXIT

wanted() { # NAME
    local word
    [ ${#words[@]} -gt 0 ] || return 0
    for word in "${words[@]}"; do case $1 in "$word"*) return 0 ;; esac; done
    return 1
}
counted() { # machine instructions of a program with these words
    valgrind --tool=callgrind --callgrind-out-file=/dev/null "$@" 2>&1 >/dev/null | sed -n 's/.*Collected : *//p'
}
total() { # of our program
    counted "$program" "$@"
}
count() { # NAME PER NUMBER FROM TO WORDS: between two microseconds, divided by a number
    local name=$1 per=$2 number=$3 from=$4 to=$5 few more
    wanted "$name" || return 0
    shift 5
    few=$(total "$@" --us "$from")
    more=$(total "$@" --us "$to")
    if [ -z "$few" ] || [ -z "$more" ]; then
        echo "$name: the program did not run" >&2
        exit 1
    fi
    awk -v name="$name" -v per="$per" -v sum=$((more - few)) -v n="$number" 'BEGIN { printf "%s %s %.2f\n", name, per, sum / n }' | tee -a today >&2
}
cycles() { # NAME FROM TO WORDS
    local name=$1 from=$2 to=$3
    shift 3
    count "$name" cycle $((16 * (to - from))) "$from" "$to" "$@"
}

moved() { # how often pin.hex moves pin 13 in these microseconds
    "$program" bare "$here/pin.hex" --us "$1" | grep -c '^#'
}

# The microcontroller alone, with its wave thrown away: a loop, a CRC over SRAM, sketches that wait, and sleep.
count_alone() {
    cycles spin 5000 20000 bare "$here/spin.hex"
    cycles crc 5000 20000 bare "$here/crc.hex"
    cycles blink 5000 20000 bare "$here/../examples/arduino-blink/arduino-blink.hex"
    cycles delay 20000 40000 bare "$here/delay.hex"
    cycles millis 20000 40000 bare "$here/millis.hex"
    cycles idle 102400 1024000 bare "$here/idle.hex"
    cycles serial-115200 20000 40000 bare "$here/print-115200.hex"
    cycles serial-2000000 20000 40000 bare "$here/print-2000000.hex"
    cycles spi-8mhz 2000 4000 bare "$here/spi.hex"
    cycles twi-400khz 5000 20000 bare "$here/twi.hex"
}

# What simavr takes for a cycle of these, as a library.
count_simavr() {
    local name
    if ! cc -O2 -o simavr_run "$here/simavr_run.c" -lsimavr 2>/dev/null; then
        echo "cc or simavr is not installed (Debian's packages gcc and libsimavr-dev), so simavr is not counted" >&2
        return 0
    fi
    for name in spin crc blink delay millis; do
        simavr_cycles simavr-$name $name
        simavr_cycles simavr-long-$name $name 100000
    done
}
simavr_cycles() { # LINE NAME [MOST]: between 320,000 and 640,000 cycles
    local line=$1 hex=$here/$2.hex few more
    wanted "$line" || return 0
    [ "$2" != blink ] || hex=$here/../examples/arduino-blink/arduino-blink.hex
    shift 2
    few=$(counted ./simavr_run "$hex" 320000 "$@")
    more=$(counted ./simavr_run "$hex" 640000 "$@")
    awk -v name="$line" -v sum=$((more - few)) 'BEGIN { printf "%s cycle %.2f\n", name, sum / 320000 }' | tee -a today >&2
}

# A move of pin 13, with what the core does until the next.
count_moves() {
    board alone pin -
    board led pin - 'wokwi-led l1' $'uno:13 l1:A\nuno:GND.1 l1:C'
    board resistor pin - $'wokwi-resistor r1\nwokwi-led l1' $'uno:13 r1:1\nr1:2 l1:A\nuno:GND.1 l1:C'
    board leds pin - "$(parts 63 wokwi-led l)" "$(cathodes 63)"$'\nuno:13 l1:A\n'"$(wires 63 uno:2 l A | tail -n +2)"
    count pin-bare move "$moves" 5000 20000 bare "$here/pin.hex"
    for name in alone led leds resistor; do count "pin-$name" move "$moves" 5000 20000 run $name --vcd /dev/null; done
}

# Two gates in a ring, which change in each cycle.
count_nets() {
    board ring - - $'wokwi-gate-not a\nwokwi-gate-not b' $'a:OUT b:IN\nb:OUT a:IN'
    cycles ring 2000 4000 run ring
    cycles ring-wave 2000 4000 run ring --vcd /dev/null
}

# Chips with an engine, beside the same boards without them, and callbacks: a watch on pin 13 as it moves, an inverter there,
# and a timer of 1 us.
count_chips() {
    board i2c-alone read -
    board spi-alone spi -
    board uart-alone print-2000000 -
    for name in i2c spi uart; do cycles $name-alone 2000 4000 run $name-alone; done
    if command -v clang >/dev/null && command -v wasm-ld >/dev/null; then
        for name in i2c spi uart watch timer; do chip $name; done
        cp "$here/../examples/chip-inverter/inverter.wasm" .
        echo '{ "name": "It", "pins": ["IN", "OUT"] }' >inverter.json
        board i2c read i2c 'chip-it c' $'uno:A5 c:A\nuno:A4 c:B'
        board spi spi spi 'chip-it c' $'uno:13 c:A\nuno:11 c:B\nuno:12 c:C'
        board uart print-2000000 uart 'chip-it c' 'uno:1 c:A'
        board watch pin watch 'chip-it c' 'uno:13 c:A'
        board inverter pin inverter 'chip-it c' 'uno:13 c:IN'
        board timer - timer 'chip-it c'
        for name in i2c spi uart; do cycles $name-chip 2000 4000 run $name; done
        for name in watch inverter; do count "pin-$name" move "$moves" 5000 20000 run $name; done
        count timer callback 2000 2000 4000 run timer
    else
        echo "clang or wasm-ld is not installed (Debian's packages clang and lld), so chips are not counted" >&2
    fi
}

cd "$folder"
: >today
if [ -n "$from" ]; then
    cp "$from" today
elif command -v valgrind >/dev/null; then
    [ -n "${PROGRAM:-}" ] || "$here/../mudflatjar" bare "$here/spin.hex" --us 1 >/dev/null
    moves=$(($(moved 20000) - $(moved 5000)))
    count_alone
    count_simavr
    count_moves
    count_nets
    count_chips
else
    echo "valgrind is not installed (Debian's package valgrind), so nothing is counted" >&2
    exit 0
fi

# Today's figures as a column of the kept ones, or beside one of them.
if [ -n "$keep" ]; then
    awk -v commit="$keep" '
        FILENAME != "today" && /^#/ { print; next }
        FILENAME != "today" && $1 == "what" {
            for (i = 3; i <= NF; i++) if ($i == commit) at = i
            last = at ? NF : NF + 1
            if (!at) at = last
            $at = commit
            line[++lines] = $0
            next
        }
        FILENAME != "today" { name[$1] = ++lines; line[lines] = $0; next }
        {
            if (!($1 in name)) { name[$1] = ++lines; line[lines] = $1 " " $2 }
            now[name[$1]] = $3
        }
        END {
            for (i = 1; i <= lines; i++) {
                n = split(line[i], cell, " ")
                for (k = n + 1; k <= last; k++) cell[k] = "-"
                if (i in now) cell[at] = now[i]
                printf "%-16s %-9s", cell[1], cell[2]
                for (k = 3; k <= last; k++) printf " %9s", cell[k]
                printf "\n"
            }
        }' "$kept" today >new
    cp new "$kept"
    cat "$kept"
    exit 0
fi
awk -v than="$than" '
    FILENAME != "today" && $1 == "what" {
        at = NF
        if (than != "") for (at = NF; at > 2 && $at != than; at--) { }
        if (at < 3) { print "there are no kept figures of " than > "/dev/stderr"; bad = 2; exit }
        printf "%-16s %-9s %10s %10s %7s\n", "what", "per", $at, "now", "ratio"
        next
    }
    FILENAME != "today" { if (!/^#/) kept[$1] = $at; next }
    {
        before = $1 in kept ? kept[$1] : "-"
        ratio = before + 0 > 0 ? sprintf("%.3f", $3 / before) : "-"
        printf "%-16s %-9s %10s %10s %7s\n", $1, $2, before, $3, ratio
        if (ratio + 0 > 1.01) { dearer = dearer sprintf("\n  %s: %s, kept %s, %s times", $1, $3, before, ratio); bad = 1 }
    }
    END {
        if (bad < 2) print dearer != "" ? "dearer by more than 1 %:" dearer : "nothing is dearer by more than 1 %"
        exit bad
    }' "$kept" today
