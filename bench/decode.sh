#!/bin/bash
# Measures `decode` beside sigrok-cli (Debian's package, which this script needs) with its decoder of the same bus, on waves of
# just under 16 MiB, the most that `decode` reads: a UART at 2,000,000 baud, SPI at 4 MHz and I2C at 1 MHz, without pauses. Both
# have to find the same bytes.
# Prints seconds of processor time, the least of three runs in turn, and the ratio of the two. The program runs in 64 MiB of
# address space.
# PROGRAM=FILE before the script measures another program, RUNS=N takes the least of N runs: sigrok-cli takes its time.
set -euo pipefail
here=$(cd "$(dirname "$0")" && pwd)
program=$(realpath "${PROGRAM:-$here/../target/mudflatjar}")
folder=$(mktemp -d)
trap 'rm -rf "$folder"' EXIT
cd "$folder"

limited() ( ulimit -v 65536; exec "$program" "$@" )
seconds() { # FILE COMMAND: of processor time of the command, which writes the file
    local file=$1
    shift
    { TIMEFORMAT='%U + %S'; time "$@" >"$file" 2>/dev/null; } 2>&1 | bc | sed 's/^\./0./'
}
least() { # of numbers
    printf '%s\n' "$@" | sort -n | head -n 1
}

# a wave of two lines a and b, as a program of awk says: set(LINE, CYCLES, VALUE) sets a line so many cycles later
wave() { # PROGRAM
    awk "$1"'
        function set(line, later, value) {
            t += later
            if (level[line] == value) return
            if (t != told) out(sprintf("#%.0f", 625 * t)) # mawk prints large numbers with an exponent
            told = t
            level[line] = value
            out(value (line == "a" ? "!" : "\""))
        }
        function out(text) { size += length(text) + 1; print text }
        BEGIN {
            out("$timescale 100 ps $end\n$scope module board $end\n$var wire 1 ! a $end\n$var wire 1 \" b $end")
            out("$upscope $end\n$enddefinitions $end\n#0\n$dumpvars\n1!\n1\"\n$end")
            level["a"] = level["b"] = "1"
            begin()
            for (n = 0; size < 16770000; n++) send(n * 89 % 256)
            finish()
            out(sprintf("#%.0f", 625 * (t + 1000)))
        }'
}
uart='
    function begin() { t = 100 }
    function finish() { }
    function send(byte,  k) {
        set("a", 0, "0")
        for (k = 0; k < 8; k++) { set("a", 8, byte % 2 ""); byte = int(byte / 2) }
        set("a", 8, "1")
        t += 8
    }'
spi='
    function begin() { set("a", 100, "0") }
    function finish() { }
    function send(byte,  k) {
        for (k = 7; k >= 0; k--) { set("b", 2, int(byte / 2 ^ k) % 2 ""); set("a", 0, "0"); set("a", 2, "1") }
    }'
i2c='
    function begin() { set("b", 100, "0"); set("a", 8, "0") }
    function finish() { bit("0"); set("b", 8, "1") }
    function bit(value) { set("b", 4, value); set("a", 4, "1") }
    function send(byte,  k) {
        for (k = 7; k >= 0; k--) { bit(int(byte / 2 ^ k) % 2 ""); set("a", 8, "0") }
        bit("0"); set("a", 8, "0")
    }'

sigrok() { # DECODER ANNOTATIONS
    sigrok-cli -I vcd:downsample=625 -i wave.vcd -P "$1" -A "$2"
}
compare() { # NAME, HOW THE WAVE IS MADE, DECODER, ANNOTATIONS, WORDS OF A BUS
    local name=$1 how=$2 decoder=$3 annotations=$4 of_ours=() of_theirs=() ours theirs
    shift 4
    wave "$how" >wave.vcd
    for _ in $(seq "${RUNS:-3}"); do
        of_ours+=("$(seconds lines limited decode wave.vcd "$@")")
        of_theirs+=("$(seconds found sigrok "$decoder" "$annotations")")
    done
    ours=$(least "${of_ours[@]}")
    theirs=$(least "${of_theirs[@]}")
    sed -n 's/.* 0x\(..\).*/\1/p' lines >bytes
    sed -n 's/.*[: ]\([0-9A-Fa-f][0-9A-Fa-f]\)$/\1/p' found | tr a-f A-F | cmp bytes
    echo "$name: $(wc -l <bytes) bytes in a wave of $(stat -c %s wave.vcd): decode takes $ours s, sigrok-cli $theirs s;" \
        "the ratio is $(echo "scale=4; $ours / $theirs" | bc | sed 's/^\./0./')"
}
compare UART "$uart" uart:rx=a:baudrate=2000000 uart=rx-data --uart a --bit 8
compare SPI "$spi" spi:clk=a:mosi=b:cpol=0:cpha=0 spi=mosi-data --spi a --data b --mode 0
compare I2C "$i2c" i2c:scl=a:sda=b:address_format=unshifted i2c=address-write:address-read:data-write:data-read --i2c a --sda b
