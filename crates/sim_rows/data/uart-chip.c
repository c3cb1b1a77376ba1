/* Three bytes to a chip and three back, three times, at the baud that pins 2 to 4 choose; each byte is the one that came
   back and its place. What is wrong with a byte that comes is sent at the end. */
#include <avr/io.h>

static const uint8_t rates[8] = {103, 103, 16, 16, 3, 1, 0, 0};

static void send(uint8_t byte) {
    while (!(UCSR0A & (1 << UDRE0))) {
    }
    UDR0 = byte;
}

int main(void) {
    uint8_t choice = PIND >> 2 & 7, wrong = 0;
    uint8_t bytes[3] = {0x00, 0x55, 0xFE};
    UCSR0A = choice == 1 || choice == 3 || choice == 7 ? 1 << U2X0 : 0;
    UBRR0 = rates[choice];
    UCSR0B = 1 << RXEN0 | 1 << TXEN0;
    for (uint8_t round = 0; round < 3; round++) {
        for (uint8_t i = 0; i < 3; i++) {
            send(bytes[i]);
        }
        for (uint8_t i = 0; i < 3; i++) {
            uint8_t status;
            while (!((status = UCSR0A) & (1 << RXC0))) {
            }
            wrong |= status & (1 << FE0 | 1 << DOR0 | 1 << UPE0);
            bytes[i] = UDR0 + i;
        }
    }
    send(wrong);
    for (;;) {
    }
}
