// Sends bytes by SPI at the greatest rate, 8 MHz, one behind the other.
#include <avr/io.h>

int main(void)
{
    DDRB = 1 << PB2 | 1 << PB3 | 1 << PB5;
    SPCR = 1 << SPE | 1 << MSTR;
    SPSR = 1 << SPI2X;
    for (unsigned char x = 0;; x++) {
        SPDR = x;
        while (!(SPSR & 1 << SPIF)) {}
    }
}
