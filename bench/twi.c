// Calls each address by TWI at 400 kHz, again and again, on a bus where nobody answers.
#include <avr/io.h>

static void act(unsigned char bits)
{
    TWCR = 1 << TWINT | 1 << TWEN | bits;
    while (!(TWCR & 1 << TWINT)) {}
}

int main(void)
{
    PORTC = 1 << PC4 | 1 << PC5;
    TWBR = 12;
    for (unsigned char x = 0;; x += 2) {
        act(1 << TWSTA);
        TWDR = x;
        act(0);
        TWCR = 1 << TWINT | 1 << TWEN | 1 << TWSTO;
        while (TWCR & 1 << TWSTO) {}
    }
}
