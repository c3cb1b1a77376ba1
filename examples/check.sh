#!/bin/sh
# Runs every example and compares what it writes with its expected/ files. Ends with 1 where one differs.
# PROGRAM is the program to try, target/mudflatjar if it is not set.
here=$(cd "$(dirname "$0")" && pwd)
program=${PROGRAM:-$here/../target/mudflatjar}
bad=0
down=$(mktemp -d) || exit 1
trap 'rm -rf "$down"' EXIT

# the value on pins 0 to 7 at each rise of pin 8
pulses() {
    awk '
        /^\$var/ { split($5, name, "."); pin[$4] = name[2] }
        /^[01xz]/ {
            p = pin[substr($0, 2)]; v = substr($0, 1, 1)
            if (p == "8" && v == "1" && level[8] != "1") rise = 1
            level[p] = v
        }
        /^#/ { show() }
        END { show() }
        function show(  i, n) {
            if (rise) { n = 0; for (i = 7; i >= 0; i--) n = 2 * n + (level[i] == "1"); print n }
            rise = 0
        }'
}
# the number on the LEDs NAME0, NAME1 and so on, as it is after each change of one of them
lights() { # NAME
    awk -v name="$1" '
        /^\$var/ && $5 ~ "^" name "[0-7]\\.A$" { led[$4] = substr($5, length(name) + 1, 1) }
        /^[01xz]/ && substr($0, 2) in led { level[led[substr($0, 2)]] = substr($0, 1, 1); change = 1 }
        /^#/ { show() }
        END { show() }
        function show(  k, number, all) {
            if (!change) return
            change = 0
            for (k in level) { number += (level[k] == "1") * 2 ^ k; all = all level[k] }
            if (all !~ /[xz]/) print number
        }'
}
# MILLISECOND SEGMENTS of a digit whose cathode is on ground, A in bit 0, where they stay for a millisecond; the time to the nearest 10
digits() { # NAME
    awk -v name="$1" '
        BEGIN { split("A B C D E F G DP", letters); for (k in letters) place[name "." letters[k]] = 2 ^ (k - 1) }
        /^\$var/ && $5 in place { weight[$4] = place[$5] }
        /^#/ { now = substr($0, 2) / 10000000; if (moved && now - since >= 1) show() }
        /^[01xz]/ && substr($0, 2) in weight { level[substr($0, 2)] = substr($0, 1, 1); since = now; moved = 1 }
        function show(  k, n) { for (k in level) n += (level[k] == "1") * weight[k]; printf "%d %02X\n", int(since / 10 + 0.5) * 10, n; moved = 0 }'
}
# CYCLE PIN VALUE for each change of a pin of the Uno
changes_of() { # PIN
    awk -v pin="$1" '
        $5 == "uno." pin { code = $4 }
        /^#/ { cycle = substr($0, 2) / 625 }
        /^[01xz]/ && cycle > 0 && substr($0, 2) == code { print cycle, pin, substr($0, 1, 1) }'
}
# MILLISECOND LEVEL of each change between 0 and 1 of an Uno's pin, the time to the nearest STEP of milliseconds
at() { # PIN STEP
    awk -v pin="$1" -v step="$2" '
        $5 == "uno." pin { code = $4 }
        /^#/ { ms = substr($0, 2) / 10000000 }
        /^[01xz]/ && substr($0, 2) == code {
            now = substr($0, 1, 1)
            if (was ~ /[01]/ && now ~ /[01]/) print int(ms / step + 0.5) * step, now
            was = now
        }'
}
# the microseconds of each pulse of an Uno's pin that differs from the one before, to the nearest STEP where there is one
widths() { # PIN [STEP]
    awk -v pin="$1" -v step="${2:-0}" '
        $5 == "uno." pin { code = $4 }
        /^#/ { us = substr($0, 2) / 10000 }
        /^[01xz]/ && substr($0, 2) == code {
            if (substr($0, 1, 1) == "1") rise = us
            else if (rise != "") { width = us - rise; if (step) width = int(width / step + 0.5) * step; if (width != last) print width; last = width; rise = "" }
        }'
}
# CYCLE VALUE of a pin in cycle 0 and at each change
values() { # PART.PIN
    awk -v name="$1" '
        $5 == name { code = $4 }
        /^#/ { cycle = substr($0, 2) / 625 }
        /^[01xz]/ && substr($0, 2) == code { print cycle + 0, substr($0, 1, 1) }'
}
same() { # NAME, EXPECTED; the text at hand on standard input
    if cmp -s - "$2"; then echo "$1: ok"; else echo "$1: differs from $2"; return 1; fi
}
wave() { # FOLDER MICROSECONDS
    "$program" run "$1" --us "$2" --vcd -
}
# the gate runs the same firmware and diagrams (crates/sim_rows)
rows=$here/../crates/sim_rows/data
twin() { # FILE, FILE OF THE ROWS
    cmp -s "$here/$1" "$rows/$2" || { echo "$1: crates/sim_rows has another $2"; bad=1; }
}
twin blink/blink.hex blink.hex
twin blink/expected/wave.vcd blink.vcd
twin crc/crc.hex crc.hex
twin sort/sort.hex sort.hex
twin counter/counter.hex counter.hex
twin counter/diagram.json counter.json
twin counter/expected/run.vcd counter.vcd
twin replay/recorded.vcd inverter.vcd
twin replay/late.vcd inverter-moved.vcd
twin replay/expected/late.vcd inverter-moved-played.vcd
twin twin/by-table/inverter.wasm inverter-by-table.wasm
twin twin/without-its-third-write/inverter.wasm inverter-without-its-third-write.wasm
# two boards have the firmware of others
cmp -s "$here/chip-printf/arduino-blink.hex" "$here/arduino-blink/arduino-blink.hex" || { echo "chip-printf has another arduino-blink.hex"; bad=1; }
cmp -s "$here/chip-display/fade.hex" "$here/fade/fade.hex" || { echo "chip-display has another fade.hex"; bad=1; }
pulses <"$rows/crc.vcd" | same "crc in the rows" "$here/crc/expected/pulses.txt" || bad=1
pulses <"$rows/sort.vcd" | same "sort in the rows" "$here/sort/expected/pulses.txt" || bad=1
lights bit <"$rows/counter-down.vcd" | same "counter downwards in the rows" "$here/counter/expected/counts-down.txt" || bad=1
for name in blink counter pulse arduino-blink fade tone pin-interrupt pot-blink button eeprom-counter watchdog low-power serial-hello pot-serial i2c-scanner spi-loopback shift-out spi-shift latch seven-segment lcd-hello lcd-i2c oled-hello keypad chip-inverter chip-blinker chip-counter chip-thermometer chip-registers chip-echo chip-printf chip-display; do
    "$program" check "$here/$name" | same "$name as a project" "$here/$name/expected/check.txt" || bad=1
done
"$program" bare "$here/blink/blink.hex" --us 1 | same blink "$here/blink/expected/wave.vcd" || bad=1
"$program" bare "$here/crc/crc.hex" --us 300 | pulses | same crc "$here/crc/expected/pulses.txt" || bad=1
"$program" bare "$here/sort/sort.hex" --us 100 | pulses | same sort "$here/sort/expected/pulses.txt" || bad=1

wave "$here/blink" 1 | same "blink with its LED" "$here/blink/expected/run.vcd" || bad=1
wave "$here/counter" 30 | same counter "$here/counter/expected/run.vcd" || bad=1
wave "$here/counter" 30 | lights bit | same "counter's LEDs" "$here/counter/expected/counts.txt" || bad=1

wave "$here/pulse" 200 | changes_of 13 | same pulse "$here/pulse/expected/changes.txt" || bad=1

# Arduino sketches; what is expected is what their text says
wave "$here/arduino-blink" 2100000 | at 13 1 | same arduino-blink "$here/arduino-blink/expected/pin13.txt" || bad=1
wave "$here/fade" 200000 | widths 9 | same fade "$here/fade/expected/pulses.txt" || bad=1
wave "$here/tone" 80000 | widths 8 20 | same tone "$here/tone/expected/pulses.txt" || bad=1
wave "$here/pin-interrupt" 30000 | at 13 1 | same pin-interrupt "$here/pin-interrupt/expected/pin13.txt" || bad=1
for name in shift-out spi-shift; do
    wave "$here/$name" 100000 | lights led | same "$name's LEDs" "$here/$name/expected/leds.txt" || bad=1
done
wave "$here/seven-segment" 1050000 | digits digit | same seven-segment "$here/seven-segment/expected/digits.txt" || bad=1
wave "$here/watchdog" 500000 | at 13 5 | same "watchdog's pin 13" "$here/watchdog/expected/pin13.txt" || bad=1
wave "$here/pot-blink" 950000 | at 13 10 | same pot-blink "$here/pot-blink/expected/pin13.txt" || bad=1
"$here/arduino.sh" --check || bad=1

# what is sent and what the report says, with a script where there is one
scripted() { # NAME MICROSECONDS
    set -- "$1" "$2" "$here/$1"
    if [ -f "$3/script.txt" ]; then
        "$program" run "$3" --us "$2" --script "$3/script.txt" --report "$down/report" >"$down/serial"
    else
        "$program" run "$3" --us "$2" --report "$down/report" >"$down/serial"
    fi
    same "$1's bytes" "$3/expected/serial.txt" <"$down/serial" || bad=1
    same "$1's report" "$3/expected/report.txt" <"$down/report" || bad=1
}
scripted button 60000
scripted eeprom-counter 250000
scripted watchdog 500000
scripted low-power 1000000
scripted serial-hello 350000
scripted pot-serial 290000
scripted i2c-scanner 20000
scripted spi-loopback 5000
scripted shift-out 100000
scripted spi-shift 100000
scripted latch 20000
scripted seven-segment 450000
scripted lcd-hello 1250000
scripted lcd-i2c 150000
scripted oled-hello 80000
scripted keypad 260000
"$program" run "$here/button" --us 60000 --script "$here/button/script.txt" --vcd - | at 13 1 | same "button's LED" "$here/button/expected/pin13.txt" || bad=1

# the frames on a bus
frames() { # NAME MICROSECONDS WORDS OF A BUS
    name=$1
    "$program" run "$here/$name" --us "$2" --vcd "$down/wave" >"$down/serial"
    shift 2
    "$program" decode "$down/wave" "$@" | same "$name's frames" "$here/$name/expected/frames.txt" || bad=1
}
frames serial-hello 350000 --uart uno.1 --bit 1664
frames i2c-scanner 20000 --i2c uno.A5 --sda uno.A4
frames spi-shift 100000 --spi uno.13 --data uno.11 --mode 0

"$program" run "$here/low-power" --us 1000000 --script "$here/low-power/script.txt" --vcd - | at 13 1 | same "low-power's pin 13" "$here/low-power/expected/pin13.txt" || bad=1
"$program" run "$here/latch" --us 20000 --script "$here/latch/script.txt" --vcd - | at 2 1 | same "latch's pin 2" "$here/latch/expected/pin2.txt" || bad=1

# custom chips, with the modules that are here, and with those that clang makes of their sources
chips() { # FOLDER OF THE PROJECTS, WORDS
    wave "$1/chip-inverter" 1 | values inv1.OUT | same "chip-inverter$2" "$here/chip-inverter/expected/out.txt" || bad=1
    "$program" run "$1/chip-inverter" --us 1 --report - | same "chip-inverter's report$2" "$here/chip-inverter/expected/report.txt" || bad=1
    wave "$1/chip-blinker" 3000 | values blink1.OUT | same "chip-blinker$2" "$here/chip-blinker/expected/out.txt" || bad=1
    "$program" run "$1/chip-counter" --us 10000 | same "chip-counter's bytes$2" "$here/chip-counter/expected/serial.txt" || bad=1
    "$program" run "$1/chip-thermometer" --us 250000 | same "chip-thermometer's bytes$2" "$here/chip-thermometer/expected/serial.txt" || bad=1
    "$program" run "$1/chip-registers" --us 5000 | same "chip-registers' bytes$2" "$here/chip-registers/expected/serial.txt" || bad=1
    "$program" run "$1/chip-echo" --us 10000 | same "chip-echo's bytes$2" "$here/chip-echo/expected/serial.txt" || bad=1
    "$program" check "$1/chip-typist" | same "chip-typist as a project$2" "$here/chip-typist/expected/check.txt" || bad=1
    "$program" run "$1/chip-typist" --us 200000 | same "chip-typist's bytes$2" "$here/chip-typist/expected/serial.txt" || bad=1
    wave "$1/chip-typist" 200000 | at 13 10 | same "chip-typist's LED$2" "$here/chip-typist/expected/pin13.txt" || bad=1
    "$program" run "$1/chip-printf" --us 2100000 --report - | same "chip-printf's report$2" "$here/chip-printf/expected/report.txt" || bad=1
    "$program" run "$1/chip-display" --us 160000 --report - | same "chip-display's report$2" "$here/chip-display/expected/report.txt" || bad=1
}
chips "$here" ""
if command -v "${CLANG:-clang}" >/dev/null && command -v wasm-ld >/dev/null; then
    mkdir "$down/modules"
    "$here/chips.sh" --into "$down/modules" >/dev/null || bad=1
    for name in inverter blinker counter thermometer registers echo typist; do
        cp -r "$here/chip-$name" "$down"
        cp "$down/modules/$name.wasm" "$down/chip-$name"
    done
    cp -r "$here/chip-printf" "$here/chip-display" "$down"
    cp "$down/modules/bars.wasm" "$down/chip-display"
    [ ! -f "$down/modules/logger.wasm" ] || cp "$down/modules/logger.wasm" "$down/chip-printf"
    chips "$down" ", its module made again"
else
    echo "no clang or wasm-ld: the chips' modules are not made again" >&2
fi

# what the typist types: the attributes in the diagram, others, and texts in its module
if command -v python3 >/dev/null; then
    PROGRAM=$program python3 -B "$here/chip-typist/test_typist.py" || bad=1
    "$here/../tools/display.py" "$here/chip-display/expected/report.txt" bars1 | same "chip-display's picture" "$here/chip-display/expected/picture.txt" || bad=1
    "$here/../tools/display.py" "$here/chip-display/expected/report.txt" bars1 --svg - | same "chip-display's picture in colors" "$here/chip-display/display.svg" || bad=1
else
    echo "no python3: chip-typist/typist.py and the picture of chip-display are skipped" >&2
fi

# waves that stand in for a chip: its own, one that was edited, and those that the chips here write
replay() { # FOLDER WAVE MICROSECONDS
    "$program" replay "$1" "$2" --us "$3" --vcd "$down/played" --report "$down/report" >"$down/serial"
}
replay "$here/chip-inverter" "$here/replay/recorded.vcd" 1
same "replay's wave" "$here/replay/recorded.vcd" <"$down/played" || bad=1
same "replay's report" "$here/replay/expected/report.txt" <"$down/report" || bad=1
replay "$here/chip-inverter" "$here/replay/late.vcd" 1
same "replay's edited wave" "$here/replay/expected/late.vcd" <"$down/played" || bad=1
for case in chip-inverter=1000 chip-blinker=3000 chip-counter=10000 chip-thermometer=250000 chip-registers=5000 chip-echo=10000 chip-typist=200000 chip-printf=2100000 chip-display=160000; do
    name=${case%=*}
    "$program" run "$here/$name" --us "${case#*=}" --vcd "$down/recorded" --report "$down/whole" >"$down/sent"
    replay "$here/$name" "$down/recorded" "${case#*=}"
    same "$name played" "$down/recorded" <"$down/played" || bad=1
    same "$name's bytes, played" "$down/sent" <"$down/serial" || bad=1
    grep -v '^chip ' "$down/whole" | cmp -s - "$down/report" || { echo "$name's report, played: differs"; bad=1; }
done

# other versions of a chip
for name in by-table without-its-third-write; do
    "$program" twin "$here/chip-inverter" "$here/twin/$name" --us 1000 | same "twin $name" "$here/twin/expected/$name.txt" || bad=1
done

# the counter with pin 2 on ground
cp "$here/counter/wokwi.toml" "$here/counter/counter.hex" "$down"
sed 's/"vcc1:VCC", "uno:2"/"gnd1:GND", "uno:2"/' "$here/counter/diagram.json" >"$down/diagram.json"
wave "$down" 30 | lights bit | same "counter downwards" "$here/counter/expected/counts-down.txt" || bad=1
exit $bad
