// Computes the CRC-16/IBM-3740 of 1,024 bytes of SRAM 1,680 times, which takes 159,990,000 cycles, and changes no pin.
// Then it sleeps with interrupts off, at which simavr ends. Built with avr-gcc -mmcu=atmega328p -O1.
#include <avr/interrupt.h>
#include <avr/io.h>
#include <avr/sleep.h>
#include <stdint.h>

static volatile uint16_t result;
static uint8_t bytes[1024];

static uint16_t crc_16(const uint8_t *p, uint16_t count) {
    uint16_t crc = 0xFFFF;
    while (count--) {
        crc ^= (uint16_t)*p++ << 8;
        for (uint8_t k = 0; k < 8; k++)
            crc = crc & 0x8000 ? crc << 1 ^ 0x1021 : crc << 1;
    }
    return crc;
}

int main(void) {
    for (uint16_t i = 0; i < sizeof bytes; i++)
        bytes[i] = i * 7;
    for (uint16_t round = 0; round < 1680; round++)
        result = crc_16(bytes, sizeof bytes);
    cli();
    sleep_enable();
    sleep_cpu();
    for (;;) {}
}
