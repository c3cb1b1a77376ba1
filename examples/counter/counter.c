// Counts the rising edges at pin 3 and shows the lower three bits of the count on pins 8 to 10: upwards while pin 2
// is high, downwards while it is low. It makes edges itself, on pin 12. Whether they reach pin 3, and what pin 2
// reads, is up to the wires in diagram.json.
#define F_CPU 16000000
#include <avr/io.h>
#include <stdint.h>
#include <util/delay.h>

static uint8_t edge_came(void) {
    uint8_t came = EIFR & 1 << INTF1;
    EIFR = 1 << INTF1;
    return came;
}

int main(void) {
    uint8_t count = 0;
    DDRB = 1 << PB4 | 1 << PB2 | 1 << PB1 | 1 << PB0;
    EICRA = 1 << ISC11 | 1 << ISC10;
    for (;;) {
        PINB = 1 << PB4;
        _delay_us(1);
        if (edge_came()) {
            count += PIND & 1 << PD2 ? 1 : -1;
            PORTB = (PORTB & 1 << PB4) | (count & 7);
        }
    }
}
