#!/bin/sh
# Builds the HEX files of the Arduino sketches as the IDE does for an Uno, from Debian's packages arduino-core-avr, gcc-avr
# and avr-libc. With --check it builds them in a folder of its own and compares them with those that are here.
set -eu
check=${1:-}
here=$(cd "$(dirname "$0")" && pwd)
base=/usr/share/arduino/hardware/arduino/avr
core=$base/cores/arduino
if [ ! -d "$core" ] || ! command -v avr-g++ >/dev/null; then
    echo "arduino-core-avr or gcc-avr is not installed: the HEX files stay as they are"
    exit 0
fi
work=$(mktemp -d)
trap 'rm -rf "$work"' EXIT
common="-c -Os -w -ffunction-sections -fdata-sections -flto -mmcu=atmega328p -DF_CPU=16000000L -DARDUINO=10807 -DARDUINO_AVR_UNO -DARDUINO_ARCH_AVR -I$core -I$base/variants/standard -I$base/libraries/SPI/src -I$base/libraries/Wire/src -I$base/libraries/EEPROM/src"
# gcc-avr 5.4 leaves DECIMAL_DIG out of its float.h for C++, and WString.cpp wants it
cpp="avr-g++ $common -DDECIMAL_DIG=__DECIMAL_DIG__ -std=gnu++11 -fpermissive -fno-exceptions -fno-threadsafe-statics"

for file in "$core"/*.c; do avr-gcc $common -std=gnu11 -fno-fat-lto-objects -o "$work/$(basename "$file").o" "$file"; done
for file in "$core"/*.cpp; do $cpp -o "$work/$(basename "$file").o" "$file"; done
avr-gcc -c -x assembler-with-cpp -flto -mmcu=atmega328p -o "$work/wiring_pulse.S.o" "$core/wiring_pulse.S"
avr-gcc-ar rcs "$work/core.a" "$work"/*.o
# of the libraries only what a sketch uses is linked
mkdir "$work/libraries"
for file in "$base"/libraries/SPI/src/*.cpp "$base"/libraries/Wire/src/*.cpp; do $cpp -o "$work/libraries/$(basename "$file").o" "$file"; done
avr-gcc $common -std=gnu11 -fno-fat-lto-objects -o "$work/libraries/twi.c.o" "$base/libraries/Wire/src/utility/twi.c"
avr-gcc-ar rcs "$work/libraries.a" "$work/libraries"/*.o
bad=0
sketch() { # NAME OF THE HEX FILE, SOURCE, FLAGS
    name=$(basename "$1" .hex)
    { echo '#include <Arduino.h>'; cat "$2"; } >"$work/$name.cpp"
    (cd "$work" && $cpp ${3:-} -o "$name.sketch" "$name.cpp")
    avr-gcc -w -Os -flto -fuse-linker-plugin -Wl,--gc-sections -mmcu=atmega328p -o "$work/$name.elf" "$work/$name.sketch" "$work/libraries.a" "$work/core.a" -lm
    avr-objcopy -O ihex -R .eeprom "$work/$name.elf" "$work/$name.hex"
    if [ "$check" = --check ]; then
        cmp -s "$work/$name.hex" "$1" && echo "$name.hex: ok" || { echo "$name.hex: differs"; bad=1; }
    else
        cp "$work/$name.hex" "$1"
    fi
}
for name in arduino-blink fade tone pot-blink pin-interrupt button eeprom-counter watchdog low-power serial-hello pot-serial i2c-scanner spi-loopback shift-out spi-shift latch seven-segment lcd-hello lcd-i2c oled-hello keypad chip-blinker chip-counter chip-thermometer chip-registers chip-echo; do
    sketch "$here/$name/$name.hex" "$here/$name/$name.ino"
done
# chips' boards: one that types, and what sdk/check runs
sketch "$here/chip-typist/chip-typist.hex" "$here/chip-typist/chip-typist.ino"
sketch "$here/../sdk/check/wokwi/counter/counter.hex" "$here/../sdk/check/wokwi/counter/counter.ino"
# what bench/serial.sh measures
for baud in 115200 2000000; do
    sketch "$here/../bench/print-$baud.hex" "$here/../bench/print.ino" -DBAUD=$baud
done
# what bench/instructions.sh counts
for name in delay millis; do
    sketch "$here/../bench/$name.hex" "$here/../bench/$name.ino"
done
exit $bad
