#!/bin/sh
# Writes the waves of the examples, and that of a board with more variables than there are characters to name them, and
# says whether sigrok-cli and vcd2fst read each to its end and find in it what stands there, and whether sigrok-cli's decoders
# of UART, I2C and SPI find what was sent, and whether `decode` finds the same as they and as frames.py. A tool that is missing
# is skipped (Debian's packages sigrok-cli and gtkwave have them). Ends with 1 where a wave is not written or read otherwise.
here=$(cd "$(dirname "$0")" && pwd)
program=${PROGRAM:-$here/../../target/mudflatjar}
examples=$here/../../examples
rows=$here/../../crates/sim_rows/data
folder=$(mktemp -d) || exit 1
trap 'rm -rf "$folder"' EXIT

have() { # TOOLS
    for tool in "$@"; do command -v "$tool" >/dev/null || return 1; done
}
says() { # STATUS WAVE WHAT
    if [ "$1" = 0 ]; then echo "$2: ok, $3"; else echo "$2: not $3"; : >"$folder/bad"; fi # a file: much of this runs in pipes
}

# an Uno and 63 LEDs on its pins
many_leds() {
    awk 'BEGIN {
        print "{ \"version\": 1, \"parts\": [ { \"type\": \"wokwi-arduino-uno\", \"id\": \"uno\" }"
        for (i = 1; i <= 63; i++) printf ", { \"type\": \"wokwi-led\", \"id\": \"led%d\" }\n", i
        print "], \"connections\": [ [ \"uno:GND.1\", \"led1:C\" ]"
        for (i = 1; i <= 63; i++) printf ", [ \"uno:%d\", \"led%d:A\" ]\n", i % 14, i
        print "] }"
    }'
}

# sigrok-cli takes a sample each cycle, and calls x and z 0
with_sigrok() { # WAVE
    awk -f "$here/cycles.awk" "$1" >"$folder/own"
    sigrok-cli -I vcd:downsample=625 -i "$1" -O csv >"$folder/csv" &&
        { sed -n 's/^; Channels ([^)]*): //p' "$folder/csv"; grep '^[01]' "$folder/csv"; } | cmp -s - "$folder/own"
}

# vcd2fst and back again
with_fst() { # WAVE
    changes "$1" >"$folder/own"
    vcd2fst "$1" "$folder/fst" >"$folder/said" && fst2vcd "$folder/fst" >"$folder/back" &&
        changes "$folder/back" | cmp -s - "$folder/own"
}
changes() { # WAVE; those of one cycle may stand in any order
    awk -f "$here/changes.awk" "$1" | sort
}

wave() { # NAME WORDS
    name=$1
    shift
    "$program" "$@" >"$folder/wave" && tail -n 1 "$folder/wave" | grep -q '^#[0-9]*$'
    says $? "$name" "written"
    if have sigrok-cli; then
        with_sigrok "$folder/wave"
        says $? "$name" "read by sigrok-cli"
    fi
    if have vcd2fst fst2vcd; then
        with_fst "$folder/wave"
        says $? "$name" "read by vcd2fst"
    fi
}

# what sigrok-cli's UART decoder finds on pin 1, or on another, is what was printed
with_uart() { # NAME MICROSECONDS BAUD [PIN]
    "$program" run "$examples/$1" --us "$2" --vcd "$folder/wave" >"$folder/bytes" && [ -s "$folder/bytes" ] &&
        sigrok-cli -I vcd:downsample=625 -i "$folder/wave" -P "uart:rx=uno.${4:-1}:baudrate=$3" -B uart=rx | cmp -s - "$folder/bytes"
    says $? "$1" "pin ${4:-1} decoded by sigrok-cli at $3 baud"
}

# what a decoder finds in a wave first is the text on standard input
decoded() { # WAVE NAME WHAT DECODER ANNOTATIONS
    cat >"$folder/sent"
    [ -s "$folder/sent" ] && sigrok-cli -I vcd:downsample=625 -i "$1" -P "$4" -A "$5" | sed 's/^[^ ]*: //' >"$folder/found" &&
        head -n "$(wc -l <"$folder/sent")" "$folder/found" | cmp -s - "$folder/sent"
    says $? "$2" "$3 decoded by sigrok-cli"
}
i2c() { # WAVE NAME WHAT
    decoded "$1" "$2" "$3" i2c:scl=uno.A5:sda=uno.A4 i2c=start:repeat-start:stop:ack:nack:address-write:address-read:data-write:data-read
}
spi() { # WAVE NAME LINE
    decoded "$1" "$2" "$3" spi:clk=uno.13:mosi=uno.11:miso=uno.12:cs=uno.10 "spi=$3-data"
}
# each address of the bus from 1 to 126 is called, and no one answers
calls() {
    for address in $(seq 1 126); do printf 'Start\nWrite\nAddress write: %02X\nNACK\nStop\n' "$address"; done
}
# what the master and the slave of crates/sim_rows/data/twi.c send, up to the first STOP
bytes() {
    printf '%s\n' Start Write "Address write: 52" ACK "Data write: 35" ACK "Data write: CA" NACK "Data write: 0F" ACK
    printf '%s\n' "Start repeat" Read "Address read: 52" ACK "Data read: 96" ACK "Data read: 69" NACK Stop
}

# what a chip notes of a write, of reads behind repeated STARTs, and of its notes until then: 0xD0 before a byte that it saw, 0xB0
# before one that it gave
notes() {
    printf '%s\n' Start Write "Address write: 20" ACK "Data write: 11" ACK "Data write: 0F" NACK "Data write: 33" NACK Stop
    printf '%s\n' Start Write "Address write: 20" ACK "Data write: 22" ACK "Start repeat" Read "Address read: 20" ACK
    printf '%s\n' "Data read: A4" ACK "Data read: ED" ACK "Data read: C8" NACK "Start repeat" Read "Address read: 20" ACK
    printf '%s\n' "Data read: 59" NACK Stop Start Read "Address read: 21" ACK
    for note in C0 D0 11 D0 0F F0 C0 D0 22 F0 C1 B0 A4 B0 ED B0 C8 F0 C1 B0 59 F0 00; do printf 'Data read: %s\nACK\n' $note; done
}
# bytes that a chip sends back three bytes later, or that it was made with
modes() { # MODE LINE BYTES
    mode=$1 line=$2
    shift 2
    printf '%s\n' "$@" | decoded "$rows/spi-chip.vcd" "a chip of mode $mode" "$line" \
        "spi:clk=uno.13:mosi=uno.11:miso=uno.12:cs=uno.$((2 + mode)):cpol=$((mode / 2)):cpha=$((mode % 2))" "spi=$line-data"
}

# what `decode` finds is what frames.py finds, cycle by cycle
frames() { # NAME WAVE WORDS
    name=$1
    shift
    "$program" decode "$@" >"$folder/found" && "$here/frames.py" "$@" | cmp -s - "$folder/found"
    says $? "$name" "the same by decode and by frames.py, $(wc -l <"$folder/found") lines"
}
# and what sigrok's decoder finds is the same, as `decode` says it: bytes, acknowledges and framing
sigrok() { # WAVE DECODER ANNOTATIONS
    sigrok-cli -I vcd:downsample=625 -i "$1" -P "$2" -A "$3" | sed 's/^[^ ]*: //'
}
same() { # NAME, FILE OF WHAT SIGROK FOUND; decode's lines on standard input
    [ -s "$2" ] && cmp -s - "$2"
    says $? "$1" "the same by decode and by sigrok-cli"
}
uart_frames() { # NAME WAVE LINE BAUD BIT
    frames "$1 at $4 baud" "$2" --uart "$3" --bit "$5"
    have sigrok-cli || return
    sigrok "$2" "uart:rx=$3:baudrate=$4" uart |
        awk 'length == 2 { byte = toupper($0); how = "ok" } /^Frame error/ { how = "framing" } /^Stop bit/ { print byte, how }' >"$folder/sigrok"
    sed 's/^uart [0-9]* 0x//' "$folder/found" | same "$1 at $4 baud" "$folder/sigrok"
}
spi_frames() { # NAME WAVE SCK LINE MODE
    frames "$1 in mode $5" "$2" --spi "$3" --data "$4" --mode "$5"
    have sigrok-cli || return
    sigrok "$2" "spi:clk=$3:mosi=$4:cpol=$(($5 / 2)):cpha=$(($5 % 2))" spi=mosi-data >"$folder/sigrok"
    sed 's/^spi [0-9]* 0x//' "$folder/found" | same "$1 in mode $5" "$folder/sigrok"
}
i2c_frames() { # NAME WAVE SCL SDA
    frames "$1" "$2" --i2c "$3" --sda "$4"
    have sigrok-cli || return
    sigrok "$2" "i2c:scl=$3:sda=$4:address_format=unshifted" i2c=start:repeat-start:stop:ack:nack:address-write:address-read:data-write:data-read |
        sed -n 's/^Start.*/start/p; s/^Stop/stop/p; s/^ACK/ack/p; s/^NACK/nack/p; s/^[AD].*: /0x/p' >"$folder/sigrok"
    sed 's/^i2c [0-9]* //; s/ /\n/' "$folder/found" | same "$1" "$folder/sigrok"
}

have sigrok-cli || echo "sigrok-cli: skipped" >&2
have vcd2fst fst2vcd || echo "vcd2fst: skipped" >&2

mkdir "$folder/many"
cp "$examples/blink/wokwi.toml" "$examples/blink/blink.hex" "$folder/many"
many_leds >"$folder/many/diagram.json"

wave blink bare "$examples/blink/blink.hex" --us 1
wave crc bare "$examples/crc/crc.hex" --us 300
wave sort bare "$examples/sort/sort.hex" --us 100
wave "blink with its LED" run "$examples/blink" --us 1 --vcd -
wave counter run "$examples/counter" --us 30 --vcd -
wave "63 LEDs" run "$folder/many" --us 10 --vcd -
if have sigrok-cli; then
    with_uart serial-hello 350000 9600
    with_uart pot-serial 290000 115200
    "$program" run "$examples/i2c-scanner" --us 20000 --vcd "$folder/wave" >"$folder/bytes"
    calls | i2c "$folder/wave" i2c-scanner "the calls"
    # this wave is compared with the program's own by the gate
    bytes | i2c "$rows/twi.vcd" "a slave on the bus" "bytes out and in"
    "$program" run "$examples/spi-loopback" --us 5000 --vcd "$folder/wave" >"$folder/bytes"
    for line in mosi miso; do
        printf '%s\n' 4D 75 64 00 FF A5 | spi "$folder/wave" spi-loopback "$line"
    done
    # a light that runs over eight LEDs; STCP of the 74HC595 is low while a byte goes out
    "$program" run "$examples/spi-shift" --us 50000 --vcd "$folder/wave" >"$folder/bytes"
    printf '%s\n' 01 02 04 08 10 | spi "$folder/wave" spi-shift mosi
    "$program" run "$examples/shift-out" --us 50000 --vcd "$folder/wave" >"$folder/bytes"
    printf '%s\n' 01 02 04 08 10 | decoded "$folder/wave" shift-out mosi spi:clk=uno.12:mosi=uno.11:cs=uno.8 spi=mosi-data
    # custom chips: 23.5 degrees in 1/256, the registers from 5 on, and letters that come back
    "$program" run "$examples/chip-thermometer" --us 50000 --vcd "$folder/wave" >"$folder/bytes"
    printf '%s\n' Start Read "Address read: 48" ACK "Data read: 17" ACK "Data read: 80" NACK Stop |
        i2c "$folder/wave" chip-thermometer "the chip's bytes"
    "$program" run "$examples/chip-registers" --us 5000 --vcd "$folder/wave" >"$folder/bytes"
    printf '%s\n' 85 12 34 AB CD 05 00 00 00 00 | spi "$folder/wave" chip-registers mosi
    printf '%s\n' 00 00 00 00 00 00 12 34 AB CD | spi "$folder/wave" chip-registers miso
    with_uart chip-echo 10000 115200
    with_uart chip-echo 10000 115200 0
    # waves of the gate's rows: what chips note of the bus, and bytes from the highest bit and then from the lowest in each mode
    notes | i2c "$rows/i2c-chip.vcd" "a chip with notes" "what it saw and gave"
    modes 0 mosi 1D 52 87 BC B8 4A E1
    modes 0 miso 01 81 7E FF 1D 52 87 FF
    modes 1 mosi 1E 53 88 BD 78 CA 11
    modes 1 miso 12 C3 3C FF 1E 53 88 FF
    modes 2 mosi 1F 54 89 BE F8 2A 91
    modes 2 miso 24 E7 18 FF 1F 54 89 FF
    modes 3 mosi 20 55 8A BF 04 AA 51
    modes 3 miso 48 FF 00 20 01 55 8A 04
fi
# what `decode` finds in the waves of all examples with a bus, and in those of the gate's rows
recorded() { # NAME MICROSECONDS; with its script where there is one
    set -- "$1" "$2" "$examples/$1"
    if [ -f "$3/script.txt" ]; then
        "$program" run "$3" --us "$2" --script "$3/script.txt" --vcd "$folder/wave" >"$folder/bytes"
    else
        "$program" run "$3" --us "$2" --vcd "$folder/wave" >"$folder/bytes"
    fi
}
while read -r name us baud bit pin; do
    recorded "$name" "$us"
    uart_frames "$name, pin $pin," "$folder/wave" "uno.$pin" "$baud" "$bit"
done <<END
chip-counter 10000 115200 139 1
chip-echo 10000 115200 139 0
chip-echo 10000 115200 139 1
chip-registers 5000 115200 139 1
chip-thermometer 210000 115200 139 1
chip-typist 180000 9600 1667 0
chip-typist 180000 9600 1667 1
eeprom-counter 190000 9600 1667 1
i2c-scanner 20000 115200 139 1
keypad 190000 115200 139 1
latch 13000 115200 139 1
low-power 740000 9600 1667 1
pot-serial 260000 115200 139 1
serial-hello 350000 9600 1667 1
spi-loopback 5000 115200 139 1
watchdog 440000 9600 1667 1
END
while read -r name us clock line; do
    recorded "$name" "$us"
    spi_frames "$name, pin $line," "$folder/wave" "uno.$clock" "uno.$line" 0
done <<END
chip-registers 5000 13 11
chip-registers 5000 13 12
shift-out 100000 12 11
spi-loopback 5000 13 11
spi-loopback 5000 13 12
spi-shift 100000 13 11
END
while read -r name us; do
    recorded "$name" "$us"
    i2c_frames "$name" "$folder/wave" uno.A5 uno.A4
done <<END
chip-thermometer 210000
i2c-scanner 20000
lcd-i2c 150000
oled-hello 80000
END
for mode in 0 1 2 3; do
    spi_frames "chips in all modes" "$rows/spi-chip.vcd" uno.13 uno.11 $mode
done
uart_frames "a glitch, a missing stop bit and a break" "$rows/decode-uart.vcd" tx.8 2000000 8
spi_frames "a clock that rests at 1" "$rows/decode-spi.vcd" sck-high mosi 2
spi_frames "a clock that rests at 1" "$rows/decode-spi.vcd" sck-high late 3
# sigrok sees no START and no STOP inside a byte
frames "a START and a STOP inside a byte" "$rows/decode-i2c.vcd" --i2c scl --sda sda
frames "a chip with notes" "$rows/i2c-chip.vcd" --i2c uno.A5 --sda uno.A4

# as many variables as there may be, and one more
variables() { # COUNT; a wave in which the last one sends the byte 0x55, 16 cycles a bit
    awk -v count="$1" 'BEGIN {
        for (i = 0; i < 94; i++) char[i] = sprintf("%c", 33 + i)
        print "$timescale 100 ps $end\n$scope module board $end"
        for (i = 0; i < count; i++) { code[i] = i < 94 ? char[i] : char[int((i - 94) / 94)] char[(i - 94) % 94]; print "$var wire 1 " code[i] " v" i " $end" }
        print "$upscope $end\n$enddefinitions $end\n#0\n$dumpvars"
        for (i = 0; i < count; i++) print "1" code[i]
        print "$end"
        for (k = 0; k < 10; k++) print "#" 625 * (5 + 16 * k) "\n" k % 2 code[count - 1]
        print "#" 625 * 200
    }'
}
variables 8930 >"$folder/wave"
uart_frames "8,930 variables" "$folder/wave" v8929 1000000 16
variables 8931 >"$folder/wave"
[ "$("$program" decode "$folder/wave" --uart v0 --bit 16 2>&1)" = "$folder/wave: refused 90 WaveHead line 8933" ]
says $? "8,931 variables" "refused"

# as many cycles as there may be: each 5 ms a byte on each of the three buses
seconds() {
    awk '
        function set(line, later, value) { t += later; print t, line, value }
        function bit(value) { set("d", 40, value); set("c", 40, 1); set("c", 80, 0) }
        BEGIN {
            print 0, "u", 1; print 0, "k", 0; print 0, "m", 0; print 0, "c", 1; print 0, "d", 1
            for (n = 0; n < 2000; n++) {
                for (k = 0; k < 8; k++) bits[k] = int(n * 89 % 256 / 2 ^ k) % 2
                t = 80000 * n + 1
                set("u", n % 7, 0)
                for (k = 0; k < 8; k++) set("u", 1667, bits[k])
                set("u", 1667, 1)
                t = 80000 * n + 30000 + n % 11
                for (k = 7; k >= 0; k--) { set("m", 40, bits[k]); set("k", 40, 1); set("k", 40, 0) }
                t = 80000 * n + 50000 + n % 13
                set("d", 0, 0); set("c", 80, 0)
                for (k = 7; k >= 0; k--) bit(bits[k])
                bit(n % 2)
                set("d", 40, 0); set("c", 40, 1); set("d", 40, 1)
            }
        }' | sort -n -s -k 1,1 | awk '
        BEGIN {
            print "$timescale 100 ps $end\n$scope module board $end"
            n = split("u k m c d", names)
            for (i = 1; i <= n; i++) code[names[i]] = sprintf("%c", 32 + i)
            for (i = 1; i <= n; i++) print "$var wire 1 " code[names[i]] " " names[i] " $end"
            print "$upscope $end\n$enddefinitions $end\n#0\n$dumpvars"
        }
        level[$2] == $3 "" { next }
        $1 && !told { print "$end" }
        $1 != told { printf "#%.0f\n", 625 * $1; told = $1 } # mawk prints large numbers with an exponent
        { level[$2] = $3; print $3 code[$2] }
        END { print "#100000000000" }'
}
seconds >"$folder/wave"
frames "UART for ten seconds" "$folder/wave" --uart u --bit 1667
frames "SPI for ten seconds" "$folder/wave" --spi k --data m --mode 0
frames "I2C for ten seconds" "$folder/wave" --i2c c --sda d
[ ! -e "$folder/bad" ]
