// CRC-16/IBM-3740 (polynomial 0x1021, start 0xFFFF) of the nine bytes "123456789", which is 0x29B1 by the public
// catalogue of CRC algorithms. Shows the high byte, then the low byte, on port D (pins 0 to 7), each with a pulse on pin 8.
#include <avr/io.h>
#include <stdint.h>

static const char text[] = "123456789";

static uint16_t crc_16(const char *bytes, uint8_t count) {
    uint16_t crc = 0xFFFF;
    for (uint8_t i = 0; i < count; i++) {
        crc ^= (uint16_t)(uint8_t)bytes[i] << 8;
        for (uint8_t k = 0; k < 8; k++)
            crc = crc & 0x8000 ? crc << 1 ^ 0x1021 : crc << 1;
    }
    return crc;
}

static void show(uint8_t value) {
    PORTD = value;
    PORTB = 1;
    PORTB = 0;
}

int main(void) {
    DDRD = 0xFF;
    DDRB = 1;
    uint16_t crc = crc_16(text, 9);
    show(crc >> 8);
    show(crc & 0xFF);
    for (;;) {}
}
