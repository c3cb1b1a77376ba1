/* Each byte by UART at 2,000,000 baud, by SPI at 8 MHz and by I2C at 1 MHz to a chip that answers its complement. At the end come
   how many answers were others. */
#include <avr/io.h>

static void act(uint8_t how) {
    TWCR = 1 << TWINT | 1 << TWEN | how;
    while (!(TWCR & (1 << TWINT))) {
    }
}
static uint8_t by_uart(uint8_t byte) {
    while (!(UCSR0A & (1 << UDRE0))) {
    }
    UDR0 = byte;
    while (!(UCSR0A & (1 << RXC0))) {
    }
    return UDR0;
}
static uint8_t by_spi(uint8_t byte) {
    SPDR = byte;
    while (!(SPSR & (1 << SPIF))) {
    }
    return SPDR;
}
static uint8_t by_i2c(uint8_t byte) {
    act(1 << TWSTA);
    TWDR = 0xFE;
    act(0);
    TWDR = byte;
    act(0);
    act(1 << TWSTA);
    TWDR = 0xFF;
    act(0);
    act(0);
    byte = TWDR;
    TWCR = 1 << TWINT | 1 << TWEN | 1 << TWSTO;
    while (TWCR & (1 << TWSTO)) {
    }
    return byte;
}

int main(void) {
    uint8_t wrong[3] = {0, 0, 0}, byte = 0, before = 0xFF;
    UCSR0A = 1 << U2X0;
    UCSR0B = 1 << RXEN0 | 1 << TXEN0;
    DDRB = 1 << 2 | 1 << 3 | 1 << 5;
    SPSR = 1 << SPI2X;
    SPCR = 1 << SPE | 1 << MSTR | 3 << CPHA;
    do {
        wrong[0] += by_uart(byte) != (uint8_t)~byte;
        wrong[1] += by_spi(byte) != (uint8_t)~before;
        wrong[2] += by_i2c(byte) != (uint8_t)~byte;
        before = byte++;
    } while (byte);
    for (byte = 0; byte < 3; byte++) {
        UDR0 = wrong[byte];
        while (!(UCSR0A & (1 << UDRE0))) {
        }
    }
    for (;;) {
    }
}
