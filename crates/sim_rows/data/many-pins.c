// avr-gcc -mmcu=atmega328p -Os -o a.elf many-pins.c && avr-objcopy -O ihex -R .eeprom a.elf many-pins.hex
// 32 text displays share the data pins 4 to 7 and RS on 8. The E of the first 31 is the Q0 of a shift register each, in one
// chain: a 1 that goes along it gives each display a half of its own. E of the last display is on 10. In the end each register
// holds a number of its own.
#include <avr/io.h>
#include <avr/sleep.h>
#include <stdint.h>

enum { RS = 0, E = 2, DS = 3, STCP = 4, SHCP = 5 };
enum { REGISTERS = 31, DISPLAYS = 32 };

static void shift(uint8_t bit)
{
    if (bit) PORTB |= 1 << DS;
    else PORTB &= ~(1 << DS);
    PORTB |= 1 << SHCP;
    PORTB &= ~(1 << SHCP);
}

static void latch(void)
{
    PORTB |= 1 << STCP;
    PORTB &= ~(1 << STCP);
}

// the halves `first + d * step` for display d
static void halves(uint8_t first, uint8_t step)
{
    shift(1);
    for (uint8_t d = 0; d < REGISTERS; d++) {
        PORTD = first << 4;
        first += step;
        latch();
        shift(0);
        latch();
        for (uint8_t i = 0; i < 7; i++) shift(0);
    }
    PORTD = first << 4;
    PORTB |= 1 << E;
    PORTB &= ~(1 << E);
}

int main(void)
{
    DDRB = 1 << RS | 1 << E | 1 << DS | 1 << STCP | 1 << SHCP;
    DDRD = 0xF0;
    // four data lines, then the display is on
    halves(3, 0);
    halves(3, 0);
    halves(3, 0);
    halves(2, 0);
    halves(0, 0);
    halves(12, 0);
    // display d writes at column d mod 16 of its first line
    halves(8, 0);
    halves(0, 1);
    PORTB |= 1 << RS;
    // one of the characters 40 to 4F
    halves(4, 0);
    halves(0, 1);
    for (uint8_t r = REGISTERS; r > 0; r--) {
        uint8_t number = 0x40 + r;
        for (uint8_t i = 0; i < 8; i++) shift(number & 0x80 >> i);
    }
    latch();
    sleep_enable();
    sleep_cpu();
    for (;;) ;
}
