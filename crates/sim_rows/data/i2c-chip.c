/* Writes to chips and reads from them: ACK and NACK by either side, repeated STARTs, addresses that are called alone, refused or of
   nobody, a STOP and a START in the middle of a byte, at 1 MHz and 400 kHz. Each status and byte is sent at 2,000,000
   baud, and at the end of each part what the chip noted, from the address 0x21. */
#include <avr/io.h>

enum { GO = 1 << TWINT | 1 << TWEN, START = 1 << TWSTA, STOP = 1 << TWSTO, ACK = 1 << TWEA };

static void send(uint8_t byte) {
    while (!(UCSR0A & (1 << UDRE0))) {
    }
    UDR0 = byte;
}
static void act(uint8_t how) {
    TWCR = GO | how;
    while (!(TWCR & (1 << TWINT))) {
    }
}
static void say(void) { send(TWSR & 0xF8); }
static void start(void) {
    act(START);
    say();
}
static void out(uint8_t byte) {
    TWDR = byte;
    act(0);
    say();
}
static void in(uint8_t how) {
    act(how);
    say();
    send(TWDR);
}
static void stop(void) {
    TWCR = GO | STOP;
    while (TWCR & (1 << TWSTO)) {
    }
}
static void log_of_chip(void) {
    uint8_t byte;
    act(START);
    TWDR = 0x43;
    act(0);
    do {
        act(ACK);
        send(byte = TWDR);
    } while (byte);
    act(0);
    stop();
}
/* by hand: lines are low as outputs and let go as inputs */
static void sda(uint8_t level) {
    DDRC = level ? DDRC & ~(1 << 4) : DDRC | 1 << 4;
    __builtin_avr_delay_cycles(8);
}
static void scl(uint8_t level) {
    DDRC = level ? DDRC & ~(1 << 5) : DDRC | 1 << 5;
    __builtin_avr_delay_cycles(8);
}
static void bits(uint8_t byte, uint8_t count) {
    while (count--) {
        scl(0);
        sda(byte >> 7);
        scl(1);
        byte <<= 1;
    }
}
static void start_by_hand(void) {
    scl(0);
    sda(1);
    scl(1);
    sda(0);
}
static void stop_by_hand(void) {
    scl(0);
    sda(0);
    scl(1);
    sda(1);
}
static void answer_by_hand(void) {
    scl(0);
    sda(1);
    scl(1);
    send(PINC >> 4 & 3);
}

static void by_hand(void) {
    TWCR = 0;
    /* a STOP behind three bits of an address, of a byte that is written, and of one that is read */
    start_by_hand(), bits(0x40, 3), stop_by_hand();
    start_by_hand(), bits(0x40, 8), answer_by_hand(), bits(0xA0, 3), stop_by_hand();
    start_by_hand(), bits(0x41, 8), answer_by_hand(), bits(0xFF, 2), stop_by_hand();
    /* a START there */
    start_by_hand(), bits(0x40, 5), start_by_hand(), bits(0x40, 8), answer_by_hand(), bits(0x80, 1);
    start_by_hand(), bits(0x41, 8), answer_by_hand(), bits(0xFF, 8), bits(0x80, 1), stop_by_hand();
    TWCR = 1 << TWEN;
    log_of_chip();
}

int main(void) {
    UCSR0A = 1 << U2X0;
    UCSR0B = 1 << TXEN0;
    for (uint8_t part = 0; part < 2; part++) {
        TWBR = part ? 12 : 0;
        start(), out(0x40), out(0x11), out(0x0F), out(0x33), stop();
        start(), out(0x40), out(0x22);
        start(), out(0x41), in(ACK), in(ACK), in(0);
        start(), out(0x41), in(0), stop();
        log_of_chip();
        start(), out(0x48), out(0x11), stop(); /* nobody is there */
        start(), out(0xC0), stop();
        start(), out(0x40), stop();
        start(), out(0x40);
        start(), out(0x40), out(0xEE), stop();
        start(), out(0x41), stop(); /* refused */
        start(), out(0x41), in(0), stop();
        log_of_chip();
        if (part == 0) {
            by_hand();
        }
    }
    for (;;) {
    }
}
