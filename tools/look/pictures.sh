#!/bin/sh
# Makes the pictures of the examples' pages and of docs/ again: waves.svg and board.svg in examples/NAME, and docs/look.png. With --check it makes
# them elsewhere and says which differ (docs/look.png is not compared: fonts differ from machine to machine). A board needs
# node, docs/look.png Chromium; where it is missing, the picture is left as it is. PROGRAM is the program to run, target/mudflatjar if it is not set.
here=$(cd "$(dirname "$0")" && pwd)
root=$(cd "$here/../.." && pwd)
PROGRAM=$(realpath "${PROGRAM:-$root/target/mudflatjar}")
export PROGRAM
check=
[ "$1" = --check ] && check=yes
work=$(mktemp -d) || exit 1
trap 'rm -rf "$work"' EXIT
bad=0

# NAME MICROSECONDS FROM TO PINS: `moved` are all pins that moved
waves='
arduino-blink 2100000 0 2100000 uno.13
blink 2 0 2 uno.13
button 60000 0 60000 uno.2,uno.13
chip-blinker 3000 0 3000 moved
chip-counter 3000 0 2400 uno.2,uno.3,uno.4,uno.5,uno.6,uno.7
chip-echo 1500 0 1500 uno.1,uno.0
chip-inverter 2 0 2 uno.13,inv1.OUT
chip-registers 2000 0 2000 moved
chip-thermometer 2000 0 2000 uno.A5,uno.A4
counter 30 0 30 clock.J,bit0.A,bit1.A,bit2.A
eeprom-counter 250000 0 250000 uno.1
fade 200000 0 200000 uno.9
i2c-scanner 1000 0 1000 uno.A5,uno.A4
keypad 260000 0 260000 uno.5,uno.4,uno.3,uno.2,uno.9,uno.8,uno.7,uno.6,uno.1
latch 20000 0 20000 set.2.l,reset.2.l,q.OUT,notq.OUT,uno.1
lcd-hello 75000 68000 75000 lcd.RS,lcd.E,lcd.D4,lcd.D5,lcd.D6,lcd.D7
lcd-i2c 100000 99000 100000 lcd.SCL,lcd.SDA
low-power 1000000 0 1000000 btn1.1.l,uno.13,uno.1
oled-hello 80000 800 2000 oled1.SCL,oled1.SDA
pin-interrupt 30000 0 30000 moved
pot-blink 1000000 0 1000000 uno.13
pot-serial 290000 0 290000 moved
pulse 200 0 200 uno.13
serial-hello 12000 0 12000 uno.1
seven-segment 450000 0 450000 moved
shift-out 100000 0 100000 sr1.DS,sr1.SHCP,sr1.STCP,led0.A,led1.A,led2.A,led3.A,led4.A,led5.A,led6.A,led7.A
spi-loopback 1000 0 1000 moved
spi-shift 100000 0 100000 sr1.DS,sr1.SHCP,sr1.STCP,led0.A,led1.A,led2.A,led3.A,led4.A,led5.A,led6.A,led7.A
tone 80000 0 80000 uno.8
watchdog 500000 0 500000 uno.13,uno.1'
# NAME MICROSECONDS AT
boards='
button 60000 15000
chip-counter 3000 1500
counter 30 10
keypad 260000 110000
latch 20000 8000
lcd-hello 90000 90000
oled-hello 80000 80000
seven-segment 450000 250000
shift-out 100000 35000'

script() { # NAME: the words that give its script
    [ -f "$root/examples/$1/script.txt" ] && printf -- '--script %s' "$root/examples/$1/script.txt"
}
keep() { # MADE, PLACE: puts it there, or compares
    if [ -z "$check" ]; then
        mv "$1" "$2"
    elif ! cmp -s "$1" "$2"; then
        echo "look: ${2#"$root"/} is not what tools/look/pictures.sh makes"
        bad=1
    fi
}
while read -r name us from to pins; do
    [ -n "$name" ] || continue
    # shellcheck disable=SC2046 # the words of a script are words
    if python3 -B "$here/look.py" "$root/examples/$name" --us "$us" $(script "$name") --from "$from" --to "$to" --samples 0 --svg "$pins" -o "$work/waves" 2>"$work/said"; then
        keep "$work/waves" "$root/examples/$name/waves.svg"
    else
        cat "$work/said" >&2
        bad=1
    fi
done <<END
$waves
END
if ! command -v "${NODE:-node}" >/dev/null; then
    echo "look: no node: the pictures of boards are left as they are" >&2
    boards=
fi
while read -r name us at; do
    [ -n "$name" ] || continue
    # shellcheck disable=SC2046 # the words of a script are words
    if python3 -B "$here/look.py" "$root/examples/$name" --us "$us" $(script "$name") --samples 0 --svg-board "$at" -o "$work/board" 2>"$work/said"; then
        keep "$work/board" "$root/examples/$name/board.svg"
    else
        cat "$work/said" >&2
        bad=1
    fi
done <<END
$boards
END
if [ -z "$check" ]; then
    python3 -B "$here/look.py" "$root/examples/lcd-i2c" --us 150000 --samples 0 -o "$work/page.html" 2>"$work/said" || bad=1
    python3 -B "$here/browser.py" "$work/page.html" '#t=99950us&b=99480us&view=99ms..100.1ms' "$work/page.png" && mv "$work/page.png" "$root/docs/look.png"
fi
exit $bad
