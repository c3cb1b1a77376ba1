// avr-gcc -mmcu=atmega328p -Os -o a.elf oled.c && avr-objcopy -O ihex -R .eeprom a.elf oled.hex
// OLEDs by I2C at 400 kHz, each at an address of its own and each for one thing. Each line of `writes` is a write: how many bytes,
// the bytes from the address on, and whether a STOP ends it. How many bytes were not acknowledged is sent on Serial, by write.
#include <avr/io.h>
#include <avr/pgmspace.h>
#include <avr/sleep.h>
#include <stdint.h>

enum { GO = 1 << TWINT | 1 << TWEN, START = 1 << TWSTA, STOP = 1 << TWSTO };
enum { ENDS = 1, GOES_ON = 0 };

static const uint8_t writes[] PROGMEM = {
    // first: two bytes of data
    3, 0x78, 0x00, 0xAF, ENDS,
    4, 0x78, 0x40, 0xFF, 0x01, ENDS,
    // corner: a window of one column and two pages, in horizontal mode
    11, 0x7A, 0x00, 0xAF, 0x20, 0x00, 0x21, 0x7F, 0x7F, 0x22, 0x00, 0x01, ENDS,
    5, 0x7A, 0x40, 0xAA, 0xBB, 0xCC, ENDS,
    // down: vertical mode, and both windows at their ends
    11, 0x60, 0x00, 0xAF, 0x20, 0x01, 0x21, 0x02, 0x03, 0x22, 0x05, 0x06, ENDS,
    7, 0x60, 0x40, 0x01, 0x02, 0x03, 0x04, 0x05, ENDS,
    // page: page mode goes from column 127 to 0 of the same page
    6, 0x62, 0x00, 0xAF, 0xB3, 0x07, 0x17, ENDS,
    12, 0x62, 0x40, 1, 2, 3, 4, 5, 6, 7, 8, 9, 10, ENDS,
    // waits: a command's parameters come after data and in other writes
    4, 0x64, 0x00, 0xAF, 0x21, ENDS,
    3, 0x64, 0x40, 0x11, ENDS,
    3, 0x64, 0x00, 0x04, ENDS,
    3, 0x64, 0x00, 0x06, ENDS,
    3, 0x64, 0x40, 0x22, ENDS,
    // mixed: control bytes for one byte each, then one for the rest
    12, 0x66, 0x80, 0xAF, 0xC0, 0x12, 0x80, 0xB2, 0xC0, 0x34, 0x40, 0x56, 0x78, ENDS,
    // dark: windows whose first is greater than the last are ignored; inverted
    12, 0x68, 0x00, 0xAF, 0xA7, 0x21, 0x05, 0x03, 0x20, 0x00, 0x22, 0x07, 0x02, ENDS,
    3, 0x68, 0x40, 0x0F, ENDS,
    // bright: all dots lit
    4, 0x6A, 0x00, 0xAF, 0xA5, ENDS,
    3, 0x6A, 0x40, 0x01, ENDS,
    // asleep: off, with data
    3, 0x6C, 0x40, 0x55, ENDS,
    4, 0x6C, 0x00, 0xAF, 0xAE, ENDS,
    // again: a repeated START begins a write with its own control byte; a read is not acknowledged, and says nothing
    3, 0x6E, 0x00, 0xAF, GOES_ON,
    3, 0x6E, 0x40, 0x77, ENDS,
    1, 0x6F, ENDS,
    3, 0x6E, 0x40, 0x88, ENDS,
    // deaf: parameters that would turn it off if they were commands
    31, 0x70, 0x00, 0xAF, 0x81, 0xAE, 0x8D, 0xAE, 0xA8, 0xAE, 0xD3, 0xAE, 0xD5, 0xAE, 0xD9, 0xAE, 0xDA, 0xAE, 0xDB, 0xAE, 0xA3, 0xAE, 0xAE,
    0x29, 0xAE, 0xAE, 0xAE, 0xAE, 0xAE, 0xE3, 0xA1, 0xC8, ENDS,
    18, 0x70, 0x00, 0x2A, 0xAE, 0xAE, 0xAE, 0xAE, 0xAE, 0x27, 0xAE, 0xAE, 0xAE, 0xAE, 0xAE, 0xAE, 0x40, 0x2E, 0xA6, ENDS,
    3, 0x70, 0x40, 0x99, ENDS,
    // far: a column past its window goes on to 127, then from 0 to the window's end
    8, 0x72, 0x00, 0xAF, 0x20, 0x00, 0x21, 0x02, 0x04, ENDS,
    4, 0x72, 0x00, 0x0F, 0x17, ENDS,
    10, 0x72, 0x40, 1, 2, 3, 4, 5, 6, 7, 8, ENDS,
    // nobody has this address
    3, 0x74, 0x00, 0xAF, ENDS,
    0,
};

static uint8_t act(uint8_t twcr)
{
    TWCR = GO | twcr;
    while (!(TWCR & 1 << TWINT)) {}
    return TWSR;
}

static void send(uint8_t x)
{
    while (!(UCSR0A & 1 << UDRE0)) {}
    UDR0 = x;
}

int main(void)
{
    const uint8_t *at = writes;
    UBRR0 = 0;
    UCSR0A = 1 << U2X0;
    UCSR0B = 1 << TXEN0;
    PORTC = 1 << 4 | 1 << 5;
    TWBR = 12;
    for (;;) {
        uint8_t count = pgm_read_byte(at++), refused = 0;
        if (!count) break;
        act(START);
        for (uint8_t k = 0; k < count; k++) {
            TWDR = pgm_read_byte(at++);
            uint8_t status = act(0);
            if (status != 0x18 && status != 0x28) refused++;
        }
        if (pgm_read_byte(at++)) {
            TWCR = GO | STOP;
            while (TWCR & 1 << TWSTO) {}
        }
        send(refused);
    }
    while (!(UCSR0A & 1 << TXC0)) {}
    set_sleep_mode(SLEEP_MODE_IDLE);
    sleep_enable();
    sleep_cpu();
}
