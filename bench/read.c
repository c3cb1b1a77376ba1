// Reads bytes from address 0x48 by TWI at 400 kHz without a pause; calls it again and again where nobody answers.
#include <avr/io.h>

static void act(unsigned char bits)
{
    TWCR = 1 << TWINT | 1 << TWEN | bits;
    while (!(TWCR & 1 << TWINT)) {}
}

int main(void)
{
    PORTC = 1 << PC4 | 1 << PC5;
    TWBR = 12;
    for (;;) {
        act(1 << TWSTA);
        TWDR = 0x48 << 1 | 1;
        act(0);
        while ((TWSR & 0xF8) == 0x40 || (TWSR & 0xF8) == 0x50) act(1 << TWEA);
    }
}
