/* Bytes on all three lines of a chip whose engines set one another to work, at the same time where the units can. */
#include <avr/io.h>

enum { GO = 1 << TWINT | 1 << TWEN, START = 1 << TWSTA, STOP = 1 << TWSTO };

static void send(uint8_t byte) {
    while (!(UCSR0A & (1 << UDRE0))) {
    }
    UDR0 = byte;
}
static void transfer(uint8_t byte) {
    SPDR = byte;
    while (!(SPSR & (1 << SPIF))) {
    }
}
static void act(uint8_t how) {
    TWCR = GO | how;
    while (!(TWCR & (1 << TWINT))) {
    }
}
static void stop(void) {
    TWCR = GO | STOP;
    while (TWCR & (1 << TWSTO)) {
    }
}
static void pass_on(void) {
    while (UCSR0A & (1 << RXC0)) {
        send(UDR0);
    }
}
static void command(uint8_t byte) {
    act(START);
    TWDR = 0x60;
    act(0);
    TWDR = byte;
    act(0);
}

int main(void) {
    DDRB = 1 << 2 | 1 << 3 | 1 << 5;
    PORTB = 1 << 4;
    SPSR = 1 << SPI2X;
    SPCR = 1 << SPE | 1 << MSTR;
    UCSR0B = 1 << RXEN0 | 1 << TXEN0;
    for (uint8_t byte = 0; byte < 4; byte++) {
        command(byte);
        transfer(0x60 + byte);
        send(0x70 + byte);
        transfer(0xA0 + byte);
        transfer(0xB0 + byte);
        pass_on();
        stop();
        pass_on();
        act(START);
        TWDR = 0x61;
        act(0);
        act(1 << TWEA);
        transfer(0xC0 + byte);
        act(0);
        send(TWDR);
        stop();
        transfer(0xD0 + byte);
        pass_on();
    }
    for (uint8_t byte = 0; byte < 200; byte++) {
        pass_on();
    }
    for (;;) {
    }
}
