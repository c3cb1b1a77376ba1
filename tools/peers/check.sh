#!/bin/sh
# What other programs make of the same inputs: simavr moves the same pins of the examples in the same cycles, uno.c, a
# second reading of the data sheet, those of sketches with timers, interrupts, ADC, Serial, SPI, Wire, watchdog, EEPROM and sleep, board.c, a second
# reading of parts and nets, has the same waves of boards, both together those of random boards with OLEDs and keypads (boards.py), luma.oled, a library's
# driver, draws the same pictures (luma_oled.py), chips.c, a second reading of docs/CHIPS.md, those of boards with chips,
# make.c, one of the generated project, counts the same, as does `run` on that project's files, cuts.py, one of docs/REFUSALS.md,
# has the same rows of files that end too early, and wabt answers the same to the modules of the gate. What cannot be asked is
# skipped, and said on standard error.
# Debian's packages: gcc, simavr, libsimavr-dev, gcc-avr; wabt, clang, lld; python3-luma.oled. `--install` installs them first, which wants root.
# PROGRAM is the program to try, target/mudflatjar if it is not set. Ends with 1 where one answers otherwise.
here=$(cd "$(dirname "$0")" && pwd)
program=${PROGRAM:-$here/../../target/mudflatjar}
examples=$here/../../examples
rows=$here/../../crates/sim_rows/data
folder=$(mktemp -d) || exit 1
trap 'rm -rf "$folder"' EXIT
bad=0

if [ "$1" = --install ]; then
    apt-get install -y gcc libc6-dev simavr libsimavr-dev gcc-avr binutils-avr avr-libc wabt clang lld python3-luma.oled sigrok-cli gtkwave >&2 || exit 1
fi
have() { # TOOLS
    for tool in "$@"; do command -v "$tool" >/dev/null || return 1; done
}
says() { # STATUS WHAT
    if [ "$1" = 0 ]; then echo "$2: ok"; else echo "$2: another answer"; bad=1; fi
}

# CYCLE PIN VALUE for each change of a pin of the Uno, from a wave; pins 14 to 19 are A0 to A5
pins() {
    awk '/^\$var/ && $5 ~ /^uno\./ { p = substr($5, 5); sub(/^A/, "1", p); if ($5 ~ /A/) p = 4 + p; pin[$4] = p }
        /^#/ { cycle = substr($0, 2) / 625 }
        /^[01xz]/ && substr($0, 2) in pin && (cycle > 0 || !/^z/) { print cycle, pin[substr($0, 2)], substr($0, 1, 1) }' |
        sort -n -k 1,1 -k 2,2
}
# NAME MICROSECONDS INPUTS; the wave on standard input, the wires of simavr behind it. Pins that are only inputs are
# told to simavr and not compared.
with_simavr() {
    name=$1 cycles=$((16 * $2)) inputs=$3
    shift 3
    pins | awk -v inputs=" $inputs " '!index(inputs, " " $2 " ")' >"$folder/ours"
    "$folder/pins" "$examples/$name/$name.hex" "$cycles" "$@" 2>/dev/null |
        awk -v cycles="$cycles" '$1 < cycles' | sort -n -k 1,1 -k 2,2 >"$folder/theirs"
    [ -s "$folder/ours" ] && cmp -s "$folder/ours" "$folder/theirs"
    says $? "$name on simavr, $(wc -l <"$folder/ours" | tr -d ' ') changes of pins"
}
if have cc && cc -O1 -o "$folder/pins" "$here/simavr_pins.c" -lsimavr 2>"$folder/why"; then
    "$program" bare "$examples/blink/blink.hex" --us 1 | with_simavr blink 1 ""
    "$program" bare "$examples/crc/crc.hex" --us 300 | with_simavr crc 300 ""
    "$program" bare "$examples/sort/sort.hex" --us 100 | with_simavr sort 100 ""
    "$program" bare "$examples/pulse/pulse.hex" --us 200 | with_simavr pulse 200 ""
    "$program" run "$examples/counter" --us 30 --vcd - | with_simavr counter 30 "2 3" 12=3 2=high
    "$program" bare "$examples/arduino-blink/arduino-blink.hex" --us 100 | with_simavr arduino-blink 100 ""
else
    echo "simavr: skipped, no compiler for C or no libsimavr-dev" >&2
fi

# uno.c, which has timers, interrupts and the ADC as the data sheet tells them: whole waves of the gate's rows, and the
# pins of the Arduino sketches over longer times
row() { # NAME MICROSECONDS WORDS OF uno.c
    name=$1 us=$2
    shift 2
    "$folder/uno" "$rows/$name.hex" "$((16 * us))" "$@" serial="$folder/bytes" | cmp -s - "$rows/$name.vcd" &&
        { [ ! -f "$rows/$name.bytes" ] || cmp -s "$folder/bytes" "$rows/$name.bytes"; }
    says $? "row $name on uno.c"
}
with_uno() { # NAME MICROSECONDS WORDS OF uno.c
    name=$1 us=$2 script=
    shift 2
    rm -f "$folder/ours"
    [ ! -f "$examples/$name/script.txt" ] || script="--script $examples/$name/script.txt"
    "$program" run "$examples/$name" --us "$us" $script --vcd "$folder/wave" >/dev/null && pins <"$folder/wave" >"$folder/ours"
    "$folder/uno" "$examples/$name/$name.hex" "$((16 * us))" "$@" | pins >"$folder/theirs"
    [ -s "$folder/ours" ] && cmp -s "$folder/ours" "$folder/theirs"
    says $? "$name on uno.c, $(wc -l <"$folder/ours" | tr -d ' ') changes of pins"
}
if have cc && cc -O2 -o "$folder/uno" "$here/uno.c"; then
    row ctc 2
    row long 10000000
    row vectors 100
    row sleep 25
    row halt 20
    row flags 3
    row modes 7
    row kept 30
    row left-out 150
    for name in sram general read-sbi read-out read-nop int0 int0-sleep int0-reti; do
        row "mcu-$name" 3
    done
    row eeprom 36000
    row watchdog-reset 33000
    row watchdog-wakes 33000
    row watchdog 210000
    row resets 250000
    row power-down 120000 @2000 2=low @4000 2=free @6000 2=low @8000 2=free @270000 2=low @280000 2=free @782177 2=low \
        btn1.1.l:2 btn1.1.r:2 btn1.2.l:low btn1.2.r:low
    row adc-idle 25
    row adc 240 14~700 15=high pot1.GND:z pot1.SIG:14 pot1.VCC:z
    row one-byte 86
    row usart 1700 1=0
    row usart-errors 110 8=0
    row spi 2500 11=12
    row spi-given-up 100 11=12 9=10
    row spi-ss 20 8=10
    row twi-start 3
    row twi 1300 2-18 3-19
    row twi-bus 1500 2-18 3-19
    with_uno arduino-blink 2100000
    with_uno fade 200000
    with_uno tone 80000
    with_uno pin-interrupt 30000 9=2
    with_uno pot-blink 950000 14~100
    with_uno serial-hello 350000
    with_uno i2c-scanner 20000
    with_uno spi-loopback 5000 11=12
    with_uno button 60000 @160000 2=low @320000 2=free @480000 2=low @720000 2=free
    with_uno eeprom-counter 250000
    with_uno watchdog 500000
    with_uno low-power 1000000 @4800000 2=low @5600000 2=free @11200000 2=low @11360000 2=free
    with_uno pot-serial 290000 14~300 @1440000 14~700 @3040000 14~1023
else
    echo "uno.c: skipped, no compiler for C" >&2
fi

# the generated project as files: `make` counts what `run` writes of them
for words in "0 10" "7 100"; do
    set -- $words
    "$here/made.sh" "$1" "$folder/made" &&
        sent=$("$program" run "$folder/made" --us "$2" --vcd "$folder/made.vcd" | wc -c) &&
        changes=$(awk '/^#/ { time = substr($0, 2) } /^[01xz]/ && time > 0 { n++ } END { print n + 0 }' "$folder/made.vcd") &&
        [ "$("$program" make "$1" --us "$2")" = "make $1 cycles $((16 * $2)) changes $changes serial $((sent))" ]
    says $? "make $1 for $2 microseconds on the run of its project"
done

# make.c, a second reading of the generated project: the line of `make`
if have cc && cc -O2 -o "$folder/make" "$here/make.c"; then
    for words in "0 1" "7 100" "7 10000" "2026 1000" "4294967295 10"; do
        set -- $words
        [ "$("$program" make "$1" --us "$2")" = "$("$folder/make" "$1" "$2")" ]
        says $? "make $1 for $2 microseconds on make.c"
    done
else
    echo "make.c: skipped, no compiler for C" >&2
fi

# board.c, a second reading of nets, gates, the 74HC595 and displays: whole waves of the gate's rows and of examples, and what the report
# says of their parts; the Uno drives what it does on uno.c
board_row() { # NAME MICROSECONDS DIAGRAM WORDS OF board.c
    name=$1 us=$2 diagram=$3
    shift 3
    : >"$folder/pins.vcd"
    [ ! -f "$rows/$name.hex" ] || "$folder/uno" "$rows/$name.hex" "$((16 * us))" >"$folder/pins.vcd"
    "$folder/board" "$rows/$diagram" "$((16 * us))" uno="$folder/pins.vcd" "$@" | cmp -s - "$rows/$name.vcd"
    says $? "row $name on board.c"
}
with_board() { # NAME MICROSECONDS WORDS OF uno.c, which tell what its pins read
    name=$1 us=$2 script='' words=''
    shift 2
    if [ -f "$examples/$name/script.txt" ]; then
        script="--script $examples/$name/script.txt" words=script=$examples/$name/script.txt
    fi
    for word in "$@"; do case $word in @*) ;; *) words="$words input=${word%=*}" ;; esac; done
    "$program" run "$examples/$name" --us "$us" $script --vcd "$folder/wave" --report "$folder/report" >/dev/null
    "$folder/uno" "$examples/$name/$name.hex" "$((16 * us))" "$@" >"$folder/pins.vcd"
    "$folder/board" "$examples/$name/diagram.json" "$((16 * us))" uno="$folder/pins.vcd" $words report="$folder/parts" | cmp -s - "$folder/wave" &&
        grep -v '^cycles \|^uno ' "$folder/report" | cmp -s - "$folder/parts"
    says $? "$name on board.c"
}
on_board() { # NAME MICROSECONDS: the Uno and its board together, with the bytes and the whole report
    name=$1 us=$2 script='' words=''
    if [ -f "$examples/$name/script.txt" ]; then
        script="--script $examples/$name/script.txt" words=script=$examples/$name/script.txt
    fi
    "$program" run "$examples/$name" --us "$us" $script --vcd "$folder/wave" --report "$folder/report" >"$folder/bytes"
    "$folder/uno-board" "$examples/$name/diagram.json" "$((16 * us))" firmware="$examples/$name/$name.hex" $words serial="$folder/own" report="$folder/parts" |
        cmp -s - "$folder/wave" && cmp -s "$folder/bytes" "$folder/own" && cmp -s "$folder/report" "$folder/parts"
    says $? "$name on uno.c and board.c"
}
board_displays() { # NAME MICROSECONDS ROWS, of a row that has this diagram
    "$folder/uno" "$rows/$1.hex" "$((16 * $2))" >"$folder/pins.vcd"
    "$folder/board" "$rows/$1.json" "$((16 * $2))" uno="$folder/pins.vcd" report="$folder/parts" >/dev/null
    awk -v name="$1.json" '$1 == "file" && $2 == "p/diagram.json" { here = $3 == name }
        here && /^reports (lcd|shift) / { sub(/^reports /, ""); print }' "$rows/$3.rows" |
        cmp -s - "$folder/parts"
    says $? "displays of $1 on board.c"
}
if [ -x "$folder/uno" ] && cc -O2 -o "$folder/board" "$here/board.c"; then
    board_row ring 1 ring.json
    board_row gates 5 gates.json script="$rows/gates.script"
    board_row lamps 2 lamps.json script="$rows/lamps.script"
    board_row shift 20 chain.json
    board_row shift-spi 50 chain.json
    board_displays lcd-8 1000 displays
    board_displays lcd-4 5000 displays
    board_displays many-pins 6000 limits
    with_board seven-segment 450000
    with_board lcd-hello 150000
    with_board shift-out 100000
    with_board spi-shift 100000
    with_board latch 20000 2=low @80002 2=high @192001 2=low
fi
if [ -x "$folder/board" ] && cc -O2 -DBOARD -o "$folder/uno-board" "$here/uno.c" "$here/board.c"; then
    on_board oled-hello 80000
    on_board keypad 260000
    on_board lcd-i2c 50000
    if have python3; then
        PROGRAM=$program python3 -B "$here/boards.py" "$folder/uno-board" 1 40
        says $? "random boards on uno.c and board.c"
    else
        echo "random boards: skipped, no python3" >&2
    fi
fi
# a library's driver of the OLED, whose pictures the OLED has to show
luma=
for python in python3 /usr/bin/python3; do
    [ -n "$luma" ] || ! "$python" -c 'import luma.oled.device, PIL.Image' 2>/dev/null || luma=$python
done
if [ -n "$luma" ]; then
    PROGRAM=$program "$luma" -B "$here/luma_oled.py"
    says $? "pictures of luma.oled on an OLED"
else
    echo "luma.oled: skipped, no python3-luma.oled" >&2
fi
# chips.c, which has chips on the pins of uno.c and runs the sources that the modules are made of: whole waves and bytes of the gate's
# rows, and of examples
chip_on_uno() { # PROGRAM SOURCE [SOURCE OF A SECOND]
    [ -z "${3:-}" ] || cc -O2 -w -c -Dchip_init=chip_init_1 -I"$here/../../sdk" -o "$folder/second.o" "$3" || return 1
    cc -O2 -w -DCHIPS -Dchip_init=chip_init_0 -I"$here/../../sdk" -o "$folder/$1" "$here/uno.c" "$here/chips.c" "$2" ${3:+"$folder/second.o"}
}
chip_row() { # PROGRAM FIRMWARE MICROSECONDS BYTES WAVE OR - WORDS
    program_of_row=$1 hex=$2 us=$3 bytes=$4 vcd=$5
    shift 5
    "$folder/$program_of_row" "$rows/$hex.hex" "$((16 * us))" "$@" serial="$folder/bytes" >"$folder/wave" && cmp -s "$folder/bytes" "$rows/$bytes.bytes" &&
        { [ "$vcd" = - ] || cmp -s "$folder/wave" "$rows/$vcd.vcd"; }
    says $? "row $bytes $us on chips.c"
}
with_chips() { # NAME MICROSECONDS WORDS
    name=$1 us=$2
    shift 2
    "$program" run "$examples/$name" --us "$us" --vcd "$folder/wave" >"$folder/bytes"
    [ -s "$folder/bytes" ] && "$folder/$name" "$examples/$name/$name.hex" "$((16 * us))" "$@" serial="$folder/own" | cmp -s - "$folder/wave" &&
        cmp -s "$folder/bytes" "$folder/own"
    says $? "$name on chips.c"
}
if [ -x "$folder/uno" ]; then
    for name in uart-turns spi-modes i2c-log engine-order every-byte; do
        chip_on_uno "$name" "$here/../chips/$name.c" || bad=1
    done
    chip_on_uno i2c-two "$here/../chips/i2c-log.c" "$here/../chips/i2c-log.c" || bad=1
    turns=chip=c1:RX@1,TX@0,DONE@-,BUSY@-
    chip_row uart-turns uart-chip 19500 uart-chip - $turns attr=baud:9600
    chip_row uart-turns uart-chip 9800 uart-chip uart-chip-19200 $turns attr=baud:19200 2=high
    chip_row uart-turns uart-chip 3300 uart-chip - $turns attr=baud:57600 3=high
    chip_row uart-turns uart-chip 1700 uart-chip uart-chip-115200 $turns attr=baud:115200 2=high 3=high
    chip_row uart-turns uart-chip 800 uart-chip - $turns attr=baud:250000 4=high
    chip_row uart-turns uart-chip 400 uart-chip - $turns attr=baud:500000 2=high 4=high
    chip_row uart-turns uart-chip 220 uart-chip - $turns attr=baud:1000000 3=high 4=high
    chip_row uart-turns uart-chip 120 uart-chip uart-chip-2000000 $turns attr=baud:2000000 2=high 3=high 4=high
    modes=chip=c1:SCK@13,MOSI@11,MISO@12,DONE@-,S0@2,S1@3,S2@4,S3@5
    chip_row spi-modes spi-chip 330 spi-chip spi-chip $modes
    chip_row spi-modes spi-chip 4450 spi-chip-divisors - $modes
    chip_row i2c-log i2c-chip 1330 i2c-chip-1-mhz i2c-chip chip=c1:SCL@19,SDA@18
    chip_row i2c-log i2c-chip 3030 i2c-chip - chip=c1:SCL@19,SDA@18
    chip_row i2c-two i2c-chip 3030 i2c-two-chips - chip=c1:SCL@19,SDA@18 chip=c2:SCL@19,SDA@18 attr=first:95 attr=tells:0
    order=chip=c1:TURN@-,RX@1,TX@0,SCK@13,MOSI@11,MISO@12,SCL@19,SDA@18
    chip_row engine-order engine-order 600 engine-order-0 engine-order-0 $order attr=mode:0
    chip_row engine-order engine-order 600 engine-order-1 - $order attr=mode:1
    chip_row engine-order engine-order 600 engine-order-2 - $order attr=mode:2
    chip_row engine-order engine-order 600 engine-order-3 engine-order-3 $order attr=mode:3
    chip_row every-byte every-byte 15800 every-byte - chip=c1:RX@1,TX@0,SCK@13,MOSI@11,MISO@12,SCL@19,SDA@18
    for name in thermometer registers echo; do
        chip_on_uno "chip-$name" "$examples/chip-$name/$name.c" || bad=1
    done
    with_chips chip-thermometer 250000 chip=room:SCL@19,SDA@18,GND@low,VCC@high attr=temperature:23500
    with_chips chip-registers 5000 chip=regs:CS@10,SCK@13,MOSI@11,MISO@12,GND@low,VCC@high
    with_chips chip-echo 10000 chip=echo1:RX@1,TX@0,GND@low,VCC@high
fi
if have avr-gcc avr-objcopy; then
    for source in "$rows"/*.S; do
        name=$(basename "$source" .S)
        avr-gcc -mmcu=atmega328p -nostdlib -o "$folder/row.elf" "$source" &&
            avr-objcopy -O ihex "$folder/row.elf" "$folder/row.hex" &&
            tr -d '\r' <"$folder/row.hex" | cmp -s - "$rows/$name.hex"
        says $? "$name.hex from its source"
    done
    for source in "$rows"/*.c; do
        name=$(basename "$source" .c)
        avr-gcc -mmcu=atmega328p -Os -o "$folder/row.elf" "$source" &&
            avr-objcopy -O ihex -R .eeprom "$folder/row.elf" "$folder/row.hex" &&
            tr -d '\r' <"$folder/row.hex" | cmp -s - "$rows/$name.hex"
        says $? "$name.hex from its source"
    done
else
    echo "avr-gcc: skipped, it is not installed" >&2
fi

if have python3; then
    python3 -B "$here/cuts.py" --check
    says $? "rows of files that are cut on cuts.py"
else
    echo "cuts.py: skipped, no python3" >&2
fi
if have python3 wasm-validate wast2json spectest-interp clang wasm-ld; then
    # on standard error it names what it skips
    python3 "$here/../modules/make.py" --check >"$folder/said" && [ ! -s "$folder/said" ]
    status=$?
    cat "$folder/said"
    says $status "modules on wabt"
    python3 "$here/../calls/make.py" --check >"$folder/said" 2>&1
    grep -q '^wabt: \([0-9]*\)/\1 tests passed\.$' "$folder/said" && [ "$(wc -l <"$folder/said")" = 1 ]
    status=$?
    cat "$folder/said"
    says $status "calls on wabt"
else
    echo "wabt: skipped, no wabt, clang or lld" >&2
fi
exit $bad
