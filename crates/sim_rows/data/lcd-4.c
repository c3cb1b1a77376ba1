// avr-gcc -mmcu=atmega328p -Os -o a.elf lcd-4.c && avr-objcopy -O ihex -R .eeprom a.elf lcd-4.hex
// Text displays in the bus order of Arduino's LiquidCrystal: `four` as LiquidCrystal(12, 11, 5, 4, 3, 2), `eight` as
// LiquidCrystal(12, 10, 9, 8, 7, 6, 5, 4, 3, 2), and `odd` with E on 13 and RW on A0, whose halves come otherwise.
#define F_CPU 16000000
#include <avr/io.h>
#include <avr/sleep.h>
#include <stdint.h>
#include <util/delay.h>

enum { RS = 12, FOUR = 11, EIGHT = 10, ODD = 13, RW = 14 };

static uint8_t e;

static void set(uint8_t pin, uint8_t high)
{
    volatile uint8_t *port = pin < 8 ? &PORTD : pin < 14 ? &PORTB : &PORTC;
    uint8_t bit = 1 << (pin < 8 ? pin : pin < 14 ? pin - 8 : pin - 14);
    if (high) *port |= bit;
    else *port &= ~bit;
}

static void pulse(void)
{
    set(e, 0);
    _delay_us(1);
    set(e, 1);
    _delay_us(1);
    set(e, 0);
}

// the lowest bit on pin 5, the highest on 2
static void four(uint8_t half)
{
    for (uint8_t i = 0; i < 4; i++) set(5 - i, half >> i & 1);
    pulse();
}

// the lowest bit on pin 9, the highest on 2
static void eight(uint8_t x)
{
    for (uint8_t i = 0; i < 8; i++) set(9 - i, x >> i & 1);
    pulse();
}

static void send(uint8_t x, uint8_t rs)
{
    set(RS, rs);
    if (e == EIGHT) {
        eight(x);
    } else {
        four(x >> 4);
        four(x);
    }
}

static void tell(uint8_t x)
{
    send(x, 0);
}

static void text(const char *s)
{
    while (*s) send(*s++, 1);
}

static void cursor(uint8_t column, uint8_t row)
{
    tell(0x80 | (column + 0x40 * row));
}

// begin(16, 2)
static void begin(uint8_t enable)
{
    e = enable;
    set(RS, 0);
    set(e, 0);
    if (e == EIGHT) {
        tell(0x38);
        tell(0x38);
        tell(0x38);
        tell(0x38);
    } else {
        four(0x3);
        four(0x3);
        four(0x3);
        four(0x2);
        tell(0x28);
    }
    tell(0x0C);
    tell(0x01);
    tell(0x06);
}

int main(void)
{
    DDRD = 0xFC;
    DDRB = 0x3F;
    DDRC = 1 << PC0;

    begin(FOUR);
    text("hello, world!");
    cursor(0, 1);
    text("42");

    begin(EIGHT);
    cursor(4, 0);
    text("8 bits");
    cursor(15, 1);
    text("x");

    begin(ODD);
    set(RS, 0);                 // RS is that of the second half
    four(0x4);
    set(RS, 1);
    four(0x1);                  // 41 is data, at 00
    four(0x8);
    set(RS, 0);
    four(0x3);                  // 83 is an instruction
    set(RS, 1);
    four(0x4);
    set(RW, 1);
    four(0x2);                  // a half with RW 1 is none
    set(RW, 0);
    four(0x3);                  // 43 at 03
    set(RW, 1);
    four(0x7);
    set(RW, 0);
    four(0x4);
    four(0x4);                  // 44 at 04
    tell(0x33);                 // begun again in 4-bit mode: 33 sets 8-bit mode, in which 3 is an instruction of its own
    four(0x3);
    four(0x2);
    text("E");                  // 45 at 05
    e = FOUR;
    cursor(15, 0);
    text("!");                  // `four` heard nothing of that

    sleep_enable();
    sleep_cpu();
    for (;;) {}
}
