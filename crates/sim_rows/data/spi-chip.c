/* Four bytes with each of four slaves, of modes 0 to 3 at pins 2 to 5, from the highest bit and from the lowest; then a slave that is
   chosen in the middle of an idle level of the other kind, one that is let go in a byte, and every divisor. What comes in is
   sent at 2,000,000 baud. */
#include <avr/io.h>

static void send(uint8_t byte) {
    while (!(UCSR0A & (1 << UDRE0))) {
    }
    UDR0 = byte;
}
static uint8_t transfer(uint8_t byte) {
    SPDR = byte;
    while (!(SPSR & (1 << SPIF))) {
    }
    return SPDR;
}
static void choose(uint8_t mode) { PORTD &= ~(4 << mode); }
static void let_go(void) { PORTD |= 0x3C; }
static void set(uint8_t mode, uint8_t order, uint8_t divisor) {
    SPSR = divisor >> 2 & 1;
    SPCR = 1 << SPE | order << DORD | 1 << MSTR | mode << CPHA | (divisor & 3);
}
static void exchange(uint8_t mode, uint8_t count) {
    choose(mode);
    for (uint8_t i = 0; i < count; i++) {
        send(transfer(0x1D + 0x35 * i + mode));
    }
    let_go();
}

int main(void) {
    let_go();
    DDRD = 0x3C;
    DDRB = 1 << 2 | 1 << 3 | 1 << 5;
    PORTB = 1 << 4; /* a MISO that nobody drives is read as 1 */
    UCSR0A = 1 << U2X0;
    UCSR0B = 1 << TXEN0;
    /* 8 MHz from the highest bit, 4 MHz from the lowest */
    for (uint8_t order = 0; order < 2; order++) {
        for (uint8_t mode = 0; mode < 4; mode++) {
            set(mode, order, order ? 0 : 4);
            exchange(mode, 4);
        }
    }
    /* chosen while SCK is low; then it goes to its idle level, high */
    for (uint8_t mode = 2; mode < 4; mode++) {
        set(0, 0, 0);
        choose(mode);
        set(mode, 0, 0);
        send(transfer(0x5A));
        let_go();
    }
    /* let go in the second byte; what comes first then is the count of whole bytes */
    for (uint8_t mode = 0; mode < 4; mode++) {
        set(mode, 0, 1);
        choose(mode);
        send(transfer(0x99));
        SPDR = 0x66;
        __builtin_avr_delay_cycles(50);
        let_go();
        while (!(SPSR & (1 << SPIF))) {
        }
        send(SPDR);
        choose(mode);
        send(transfer(0xF0));
        let_go();
    }
    /* chosen and let go at once */
    set(1, 0, 0);
    choose(1);
    let_go();
    exchange(1, 1);
    for (uint8_t divisor = 0; divisor < 7; divisor++) {
        for (uint8_t mode = 0; mode < 4; mode++) {
            set(mode, divisor & 1, divisor);
            exchange(mode, 7);
        }
    }
    for (;;) {
    }
}
