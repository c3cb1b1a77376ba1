// Sorts eight bytes by insertion and shows them in order on port D (pins 0 to 7), each with a pulse on pin 8.
#include <avr/io.h>
#include <stdint.h>

static uint8_t values[8] = {83, 7, 255, 42, 0, 128, 42, 19};

static void sort(uint8_t *v, uint8_t count) {
    for (uint8_t i = 1; i < count; i++) {
        uint8_t x = v[i], k = i;
        for (; k > 0 && v[k - 1] > x; k--)
            v[k] = v[k - 1];
        v[k] = x;
    }
}

static void show(uint8_t value) {
    PORTD = value;
    PORTB = 1;
    PORTB = 0;
}

int main(void) {
    DDRD = 0xFF;
    DDRB = 1;
    sort(values, 8);
    for (uint8_t i = 0; i < 8; i++)
        show(values[i]);
    for (;;) {}
}
