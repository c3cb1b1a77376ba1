#!/bin/sh
# Checks the kit: its header, the compiler's words and messages, and chips that it compiles, on boards of the examples.
# PROGRAM is the program to try, target/mudflatjar if it is not set. What needs a tool that is not installed is skipped and named.
# Ends with 1 where something differs.
here=$(cd "$(dirname "$0")" && pwd)
top=$here/../..
program=$(realpath "${PROGRAM:-$top/target/mudflatjar}")
build=$top/sdk/build.sh
clang=${CLANG:-clang}
for tool in "$clang" wasm-ld bash python3; do
    command -v "$tool" >/dev/null || { echo "sdk/check: no $tool, skipped" >&2; exit 0; }
done
[ -x "$program" ] || { echo "sdk/check: there is no program $program: ./mudflatjar builds it" >&2; exit 1; }
work=$(mktemp -d) || exit 1
trap 'rm -rf "$work"' EXIT
bad=0

is() { # NAME, TEXT, EXPECTED
    if [ "$2" = "$3" ]; then echo "sdk: $1: ok"; else printf 'sdk: %s: "%s" and not "%s"\n' "$1" "$2" "$3"; bad=1; fi
}

# ---- the header: each function with the type that the definition's table has (crates/chip_abi/specs/HostNames.antt)

if command -v wasm-objdump >/dev/null; then
    # NAME (PARAMETERS) -> RESULT, as wasm-objdump shows types
    sed -n 's/^[a-z_]* [a-z]*\.[A-Za-z0-9]* = row (codes "\([A-Za-z0-9]*\)") \(.*\)$/\1 \2/p' "$top/crates/chip_abi/specs/HostNames.antt" |
        sed 's/ ∷ \[\]//g; s/ ∷ /, /g; s/I32/i32/g; s/I64/i64/g; s/\[\]/()/g' |
        sed 's/^\([^ ]*\) \(([^)]*)\) (\([^)]*\))$/\1 \2 -> \3/; s/-> $/-> nil/' | sort >"$work/table"
    "$build" -o "$work/every" "$here/chips/every.c" || exit 1
    wasm-objdump -x "$work/every" | awk '
        /^ - type\[/ { n = $2; gsub(/type\[|\]/, "", n); sub(/^ - type\[[0-9]*\] /, ""); type[n] = $0 }
        /<env\./ { n = $3; sub(/sig=/, "", n); name = $4; gsub(/<env\.|>/, "", name); print name, type[n] }' | sort >"$work/header"
    if diff "$work/table" "$work/header"; then
        echo "sdk: the header agrees with the table of $(wc -l <"$work/table") functions"
    else
        bad=1
    fi
else
    echo "sdk/check: no wasm-objdump, the comparison of the header with the table is skipped" >&2
fi

# ---- what build.sh says, and how it ends

says() { # NAME, STATUS, TEXT, WORDS of build.sh
    name=$1 status=$2 text=$3
    shift 3
    "$build" "$@" >"$work/said" 2>&1
    is "$name: status" $? "$status"
    [ -z "$text" ] || also "$text"
}
also() { # TEXT that was said too
    grep -qF -e "$1" "$work/said" || { echo "sdk: $name: no \"$1\" in:"; cat "$work/said"; bad=1; }
}
cd "$work" || exit 1
echo '#include "wokwi-api.h"
void chip_init(void) {}' >good.c
says help 0 'usage: sdk/build.sh [--libc] [--names] -o NAME.wasm' --help
says "no module named" 2 'no module is named' good.c
says "no file named" 2 'no C file is named' -o a.wasm
says "a source as the module" 2 'good.c is a source' -o good.c
says "a word without its value" 2 '-o has no word after it' good.c -o
says "no module asked for" 2 '-c makes no module' -c -o a.wasm good.c
says "a missing file" 1 'there is no file none.c' -o a.wasm none.c
says "a folder that is not there" 1 'none/a.wasm cannot be written' -o none/a.wasm good.c
says "a good chip" 0 '' -o a.wasm good.c
is "a good chip says nothing" "$(cat said)" ""
rm a.wasm
says "the header without a warning" 0 '' -Wpedantic -Wconversion -Wstrict-prototypes -Wunused-parameter -Werror -o a.wasm good.c
cp good.c good.cpp
says "the header without a warning in C++" 0 '' -std=c++11 -Wpedantic -Wconversion -Wunused-parameter -Werror -o a.wasm good.cpp
rm a.wasm good.cpp

echo '#include <stdio.h>
#include "wokwi-api.h"
void chip_init(void) { printf("x"); }' >prints.c
says "stdio.h without the library" 1 'without --libc there is no C library' -o a.wasm prints.c
echo '#include "wokwi-api.h"
int other(void);
void chip_init(void) { pin_write(other(), 1); }' >other.c
says "a function of no file" 1 'undefined symbol: other' -o a.wasm other.c
also 'a function is called that is in none of the files: is a file missing, or --libc?'
echo '#include "wokwi-api.h"
void chip_init(void) { pin_rad(1); }' >misspelled.c
says "a misspelled function" 1 'a function is called that no header file declares' -o a.wasm misspelled.c
echo '#include "wokwi-api.h"
void chipInit(void) {}' >noinit.c
says "no chip_init" 1 'exports no chipInit' -o a.wasm noinit.c
echo '#include "wokwi-api.h"
__attribute__((import_module("env"), import_name("pinToggle"))) void pin_toggle(pin_t pin);
__attribute__((import_module("board"), import_name("pinRead"))) uint32_t board_read(pin_t pin);
__attribute__((import_module("env"), import_name("attrInitFloat"))) uint32_t attr_float(const char *name, float value);
__attribute__((import_module("env"), import_name("timerStartNanos"))) void start(timer_t timer, double nanos, bool repeat);
void chip_init(void) { pin_toggle(0); board_read(1); attr_float("a", 1); start(0, 1, 0); }' >imports.c
says "an unknown import" 1 'a.wasm imports env pinToggle, which is not there' -o a.wasm imports.c
also 'a.wasm imports board pinRead, which is not there'
also 'a.wasm imports env attrInitFloat, which is not there: attributes are whole numbers: attr_init_thousandths'
also 'a.wasm imports timerStartNanos with a double'
echo '#include "wokwi-api.h"
void chip_init(void) {
    pin_adc_read(0);
    pin_dac_write(0, 1);
    attr_init_float("a", 1);
    attr_read_float(0);
    timer_start_ns_d(0, 1, true);
    get_sim_nanos_d();
    attr_string_init("b");
}' >missing.c
says "what is not there" 1 "missing.c:3:5: error: 'pin_adc_read' is unavailable: pins are low or high: use pin_read" -o a.wasm missing.c
also "missing.c:4:5: error: 'pin_dac_write' is unavailable: pins are low or high: use pin_write"
also "missing.c:5:5: error: 'attr_init_float' is unavailable: attributes are whole numbers: use attr_init_thousandths"
also "missing.c:6:5: error: 'attr_read_float' is unavailable: attributes are whole numbers: use attr_read_thousandths, which gives 23500 for 23.5"
also "missing.c:9:5: error: 'attr_string_init' is unavailable: attributes are whole numbers: give a text as numbers"
also "missing.c:7:5: error: 'timer_start_ns_d' is unavailable: use timer_start_ns"
also "missing.c:8:5: error: 'get_sim_nanos_d' is unavailable: use get_sim_nanos"
is "no module where it failed" "$(ls -- *.wasm 2>/dev/null)" ""

# pins that are not in the list next to the module
echo '#include "wokwi-api.h"
static const char *const name = "C";
void chip_init(void) {
    pin_init("A", INPUT);
    pin_init( "B", INPUT);
    pin_init(name, INPUT);
}' >pins.c
echo '{"pins": ["A"]}' >pins.json
says "a pin that is not listed" 0 'pins.c asks for the pin "B", which is not in pins.json: pin_init answers NO_PIN' -o pins.wasm pins.c
is "a pin that is not listed: messages" "$(wc -l <said)" 1
echo '{"pins": ["A", "B"]}' >pins.json
says "pins that are listed" 0 '' -o pins.wasm pins.c
is "pins that are listed: messages" "$(cat said)" ""
echo '{"pins": 1' >pins.json
says "a list that is none" 0 '' -o pins.wasm pins.c
is "a list that is none: messages" "$(cat said)" ""

# what is otherwise than in Wokwi, and floats, by the instructions of the chip's own functions
cat >otherwise.c <<'END'
#include "wokwi-api.h"
static volatile float level;
static void on_timer(void *user_data) { level = level * 2; }
static bool connect(void *user_data, uint32_t address, bool read) { return true; }
void chip_init(void) {
    pin_t in = pin_init("IN", INPUT);
    if (pin_read(in)) { level = 1; }
    const timer_config_t timer = {.callback = on_timer};
    timer_start(timer_init(&timer), 10, true);
    const i2c_config_t config = {.scl = in, .sda = in, .connect = connect};
    i2c_init(&config);
}
END
says "what is otherwise" 0 'otherwise.c reads a pin in chip_init, where every pin reads 0: read it in a callback' -o a.wasm otherwise.c
also 'otherwise.c sets an I2C slave up at address 0: it is never called here'
also 'on_timer of otherwise calculates with float or double: the chip ends with trap 14 where it comes there'
is "what is otherwise: messages" "$(wc -l <said)" 3
sed 's/if (pin_read.*//; s/volatile float/volatile int/; s/{.scl/{.address = 0x27, .scl/' otherwise.c >same.c
says "what is the same" 0 '' -o a.wasm same.c
is "what is the same: messages" "$(cat said)" ""

# a compiler that answers as one does whose linker, library or target is missing
cat >stand-in <<'END'
#!/bin/sh
case "$*" in
*print-prog-name=wasm-ld) echo "${LD:-wasm-ld}" ;;
*print-file-name=libc.a) echo "${LIBRARY:-$0}" ;;
*print-libgcc-file-name) echo "${BUILTINS:-$0}" ;;
*" -c "*)
    [ -n "$COMPILER" ] && exec "$COMPILER" "$@"
    echo "error: unable to create target: 'No available targets are compatible with triple \"wasm32\"'" >&2
    exit 1
    ;;
*) echo "clang: error: unable to execute command: Executable \"wasm-ld-16\" doesn't exist!" >&2; exit 1 ;;
esac
END
chmod +x stand-in
CLANG=$work/none says "no compiler" 1 "there is no $work/none: install Debian's packages clang and lld (./mudflatjar setup chips), or name a compiler by CLANG" -o a.wasm good.c
CLANG=$work/stand-in LD=$work/none says "no linker" 1 "there is no wasm-ld, the linker: install Debian's package lld" -o a.wasm good.c
CLANG=$work/stand-in LIBRARY=libc.a says "no library" 1 "there is no C library: install Debian's package wasi-libc" --libc -o a.wasm good.c
CLANG=$work/stand-in BUILTINS=none says "no builtins" 1 "install Debian's package libclang-rt-dev-wasm32" --libc -o a.wasm good.c
CLANG=$work/stand-in COMPILER=$clang says "a linker of another version" 1 "needs the linker of its own version: install Debian's package lld or lld-VERSION" -o a.wasm good.c
CLANG=$work/stand-in says "no target" 1 "does not compile for WebAssembly: name another by CLANG" -o a.wasm good.c

# binaryen's wasm-opt is not run: it refuses memory.copy in a module that does not name its features
mkdir path
printf '#!/bin/sh\ntouch "%s/optimised"\nexit 1\n' "$work" >path/wasm-opt
chmod +x path/wasm-opt
for level in -O0 -O2 -Os; do
    PATH=$work/path:$PATH says "$level beside wasm-opt" 0 '' $level -o a.wasm "$here/chips/memory.c"
done
is "wasm-opt is not run" "$(ls optimised 2>/dev/null)" ""

# a header next to the chip comes before the kit's, and is named
mkdir beside
cp good.c beside
echo '#define chip_init chip_begin
#define BESIDE 1
__attribute__((export_name("chipInit"))) void chip_begin(void);' >beside/wokwi-api.h
echo '#ifndef BESIDE
#error the header of the kit
#endif' >>beside/good.c
says "a header next to the chip" 0 'uses the beside/wokwi-api.h next to it, and not the one of the kit' -o a.wasm beside/good.c

# ---- chips on boards

# The last line of the report on the inverter's board, without its first words: alive, or trap K at T.
ends() { # MODULE
    rm -rf board && cp -r "$top/examples/chip-inverter" board && cp "$1" board/inverter.wasm &&
        "$program" run board --us 20 --report - | sed -n 's/^chip inv1 \([^|].*\)$/\1/p'
}
# TIME and LEVEL of OUT on that board in cycle 0 and at each change, the time in whole units of so many microseconds
changes() { # MICROSECONDS UNIT
    "$program" run board --us "$1" --vcd - | awk -v unit="$2" '
        $5 == "inv1.OUT" { code = $4 }
        /^#/ { time = substr($0, 2) / 10000 / unit }
        /^[01xz]/ && substr($0, 2) == code { printf "%d%s ", time, substr($0, 1, 1) }'
}
# What the chips of that board printed within so many microseconds, with / for each line's end.
printed() { # MICROSECONDS
    "$program" run board --us "$1" --report report >/dev/null && sed -n 's/^chip [^ ]* | //p' report | tr '\n' '/'
}
compiled() { # NAME, WORDS of build.sh
    name=$1
    shift
    rm -f "$name.wasm"
    "$build" -o "$name.wasm" "$@" || { echo "sdk: $name is not compiled"; bad=1; }
}
# the first chip of docs/CHIPS.md
awk '/^    #include "wokwi-api.h"/ { shows = 1 } /^Then/ { exit } shows { print substr($0, 5) }' "$top/docs/CHIPS.md" >toggle.c
says "the page's chip compiles without a word" 0 '' -o toggle.wasm toggle.c
is "the page's chip: messages" "$(cat said)" ""
rm -rf board && cp -r "$top/examples/chip-inverter" board && cp toggle.wasm board/inverter.wasm
is "the page's chip" "$(changes 1 0.0625)" "00 41 100 "

compiled memory "$here/chips/memory.c"
is "string.h without the library" "$(ends memory.wasm)" alive
compiled memory -O0 "$here/chips/memory.c"
is "string.h without the library or optimisation" "$(ends memory.wasm)" alive
compiled class "$here/chips/class.cpp"
rm -rf board && cp -r "$top/examples/chip-inverter" board && cp class.wasm board/inverter.wasm
is "a chip in C++" "$(changes 1 0.0625)" "00 41 60 101 120 "
says "a stack of 10,000 bytes" 0 "exceeds limit (4096) in 'chip_init'" -o stack.wasm "$here/chips/stack.c"
is "a stack that overwrites data" "$(ends stack.wasm)" "trap 1 at 0"
compiled stack -Wno-frame-larger-than -Wl,--stack-first "$here/chips/stack.c"
is "a stack that leaves the memory" "$(ends stack.wasm)" "trap 2 at 0"
compiled stack -Wno-frame-larger-than -z stack-size=65536 "$here/chips/stack.c"
is "a stack that is large enough" "$(ends stack.wasm)" alive

# Each trap of docs/CHIPS.md: the board of chip-blinker gives the chip its number.
compiled traps "$here/chips/traps.c"
rm -rf board && cp -r "$top/examples/chip-blinker" board && cp traps.wasm board/blinker.wasm
for trap in 1 2 3 4 5 6 7 8 9 10 11 12 13 14; do
    sed "s/\"micros\": \"500\"/\"micros\": \"$trap\"/" "$top/examples/chip-blinker/diagram.json" >board/diagram.json
    is "trap $trap" "$("$program" run board --us 2 --report - | sed -n 's/^chip blink1 trap //p')" "$trap at $([ $trap = 12 ] && echo 16 || echo 0)"
done

# A buffer that is handed over must stay: a static one is sent, a local one is overwritten.
uart() { # MODULE: what the sketch of chip-typist says to it
    rm -rf board && cp -r "$top/examples/chip-typist" board && cp "$1" board/typist.wasm &&
        "$program" run board --us 1200000 | tr -d '\r' | tail -n 1
}
spi() { # MODULE: what the sketch of chip-registers reads
    rm -rf board && cp -r "$top/examples/chip-registers" board && cp "$1" board/registers.wasm &&
        "$program" run board --us 5000 | tr -d '\r' | tr '\n' ' '
}
compiled buffer -D STORAGE=static "$here/chips/buffer.c"
is "uart_write of a static buffer" "$(uart buffer.wasm)" "LED on"
compiled buffer -D STORAGE= "$here/chips/buffer.c"
is "uart_write of a local buffer" "$(uart buffer.wasm)" "unknown: o??"
compiled buffer -D STORAGE=static "$here/chips/spi-buffer.c"
is "spi_start of a static buffer" "$(spi buffer.wasm)" "12 34 AB CD "
compiled buffer -D STORAGE= "$here/chips/spi-buffer.c"
is "spi_start of a local buffer" "$(spi buffer.wasm)" "3F 3F 3F 3F "

# an attribute in thousandths: a whole number as it is, a decimal as the tools hand it over, else the default
cat >thousandths.c <<'END'
#include "wokwi-api.h"
void chip_init(void) {
    uint32_t value = (uint32_t)attr_read_thousandths(attr_init_thousandths("micros", -1500));
    while (value != EXPECTED) __builtin_trap();
}
END
for value in '"micros": "23"=23000' '"micros": "-7"=-7000' '"micros": 3000000=2147483647' '"micros": "23.5"=-1500' '"other": "1"=-1500' \
    '"micros": "23.5", "micros.thousandths": "23500"=23500'; do
    compiled thousandths -D "EXPECTED=(uint32_t)(${value##*=})" thousandths.c
    rm -rf board && cp -r "$top/examples/chip-blinker" board && cp thousandths.wasm board/blinker.wasm
    sed "s/\"micros\": \"500\"/${value%=*}/" "$top/examples/chip-blinker/diagram.json" >board/diagram.json
    is "thousandths of ${value%=*}" "$("$program" run board --us 2 --report - | sed -n 's/^chip blink1 //p')" alive
done
sed -i 's/, "micros.thousandths": "23500"//' board/diagram.json
python3 -B "$top/tools/wokwi/lower.py" board lowered 2>/dev/null
is "thousandths by the tools" "$("$program" run lowered --us 2 --report - | sed -n 's/^chip blink1 //p')" alive

# ---- with the C library

if ! [ -f "$("$clang" --target=wasm32-wasi --print-file-name=libc.a)" ] || ! [ -f "$("$clang" --target=wasm32-wasi --print-libgcc-file-name)" ]; then
    echo "sdk/check: no wasi-libc or libclang-rt-dev-wasm32, chips with the C library are skipped" >&2
    exit $bad
fi
compiled memory --libc "$here/chips/memory.c"
is "string.h of the library" "$(ends memory.wasm)" alive
compiled library --libc "$here/chips/library.c"
is "printf, snprintf, strtol, qsort, malloc" "$(ends library.wasm)" alive
is "what it prints" "$(printed 20)" "text -12 ff c/no line/"
compiled deep --libc "$here/chips/deep.c"
is "too deep a stack" "$(ends deep.wasm)" "trap 2 at 0"
compiled float --libc "$here/chips/float.c"
is "a float printed after 2 microseconds" "$(ends float.wasm)" "trap 14 at 32"
is "what it had printed" "$(printed 20)" "1/"
compiled lines --libc "$here/chips/lines.c"
rm -rf board && cp -r "$top/examples/chip-inverter" board && cp lines.wasm board/inverter.wasm
is "text waits for its line's end" "$(changes 20 1)" "01 60 81 "
is "a short line costs less than 8,000 units" "$("$program" run board --us 20 --budget 8000 --report - | tail -n 1)" "chip inv1 alive"

# what of the library calls the system for
echo '#include <stdio.h>
#include <stdlib.h>
#include <time.h>
#include <unistd.h>
#include "wokwi-api.h"
void chip_init(void) {
    FILE *file = fopen("a", "r");
    printf("%s %c %d", getenv("A"), getc(file), (int)time(0));
    sleep(1);
    exit(0);
}' >system.c
says "the system" 1 '' --libc -o a.wasm system.c
for import in path_open environ_get fd_read clock_time_get poll_oneoff proc_exit; do
    also "a.wasm imports $import of the C library, which is not there: it comes from "
done
says "a function of no file, with the library" 1 'in none of the files and not in the C library: is a file missing?' --libc -o a.wasm other.c

# chips as they are written for Wokwi, compiled as they are
for chip in inverter rot13 counter/counter; do
    says "$chip compiles without a word" 0 '' --libc -o "$(basename "$chip").wasm" "$here/wokwi/$chip.c"
    is "$chip: messages" "$(cat said)" ""
done
is "printf and malloc take less than 32 KiB" "$([ "$(wc -c <inverter.wasm)" -lt 32768 ] && echo less)" less
rm -rf board && cp -r "$top/examples/chip-inverter" board && cp inverter.wasm board
is "Wokwi's inverter" "$(changes 1 0.0625)" "00 61 100 121 "
is "Wokwi's inverter: what it prints" "$(printed 1)" "The inverter is ready/pin 0 is high/pin 0 is low/pin 0 is high/pin 0 is low/pin 0 is high/"
# with the names that Wokwi gives to the files
rm -rf board && cp -r "$top/examples/chip-echo" board && cp rot13.wasm board/echo.chip.wasm && rm board/echo.wasm board/echo.json
sed -i 's/echo\.wasm/echo.chip.wasm/' board/wokwi.toml
echo '{
  "name": "ROT13",
  "author": "",
  "pins": ["TX", "RX", "GND", "VCC"],
  "controls": [{"id": "speed", "label": "Speed", "type": "range", "min": 0, "max": 10, "step": 1}]
}' >board/echo.chip.json
is "Wokwi's rot13" "$("$program" run board --us 20000)" aocqesguiwkym
is "Wokwi's rot13: what it receives" "$(printed 20000 | tr '/' '\n' | sed -n 's/^in: //p' | tr '\n' ' ')" "97 111 99 113 101 115 103 117 105 119 107 121 109 "
is "Wokwi's rot13: what it sends" "$(printed 20000 | tr '/' '\n' | grep '^out: ' | tail -n 1)" "out: 13 bytes by now"
is "Wokwi's rot13: the time" "$(printed 3001 | tr '/' '\n' | grep ' ns$' | tr '\n' '/')" "1000000 ns/2000000 ns/3000000 ns/"
rm -rf board && cp -r "$here/wokwi/counter" board && cp counter.wasm board
"$program" run board --us 10000 >answers
cmp answers "$here/wokwi/counter/expected.txt" && echo "sdk: Wokwi's I2C counter: ok" || bad=1
is "Wokwi's I2C counter: what it prints" "$(printed 10000)" \
    "The counter is ready/called to write at 0x22/called to read at 0x22/called to write at 0x22/called to read at 0x22/"
exit $bad
