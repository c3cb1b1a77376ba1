// avr-gcc -mmcu=atmega328p -Os -o a.elf spi-master.c && avr-objcopy -O ihex -j .text a.elf spi-master.hex
// Each clock, order and mode of the SPI with MOSI wired to MISO, and SS wired to pin 9; what comes in is sent on Serial.
#include <avr/interrupt.h>
#include <avr/io.h>
#include <stdint.h>

static void tell(uint8_t x)
{
    UCSR0A = 1 << U2X0 | 1 << TXC0;
    UDR0 = x;
    while (!(UCSR0A & 1 << TXC0)) {}
}

static uint8_t moved(uint8_t x)
{
    SPDR = x;
    while (!(SPSR & 1 << SPIF)) {}
    return SPDR;
}

static volatile uint8_t got;

ISR(SPI_STC_vect)
{
    got = SPDR;
}

int main(void)
{
    UCSR0B = 1 << TXEN0;
    PORTB = 1 << PB1 | 1 << PB2;
    DDRB = 1 << PB1 | 1 << PB2 | 1 << PB3 | 1 << PB5;
    uint8_t x = 0x35;
    for (uint8_t i = 0; i < 64; i++) {
        SPCR = 1 << SPE | 1 << MSTR | (i & 0x20) << 0 | (i & 0x0C) | (i & 0x03);
        SPSR = i >> 4 & 1;
        tell(moved(x));
        x = x * 5 + 3;
    }
    SPCR = 1 << SPE | 1 << MSTR | 1 << SPR0;
    SPSR = 0;
    tell('A');
    SPDR = 0x96;
    SPDR = 0x69;
    tell(SPSR);
    while (!(SPSR & 1 << SPIF)) {}
    tell(SPSR);
    tell(SPSR);
    tell(SPDR);
    tell(SPSR);
    tell('B');
    SPDR = 0x0F;
    __builtin_avr_delay_cycles(40);
    SPCR = 0;
    tell(SPSR);
    SPCR = 1 << SPE | 1 << MSTR | 1 << SPR0;
    tell(SPDR);
    tell(moved(0xE7));
    tell('C');
    DDRB &= ~(1 << PB2);
    tell(SPCR);
    SPDR = 0x77;
    PORTB &= ~(1 << PB1);
    __builtin_avr_delay_cycles(4);
    tell(SPCR);
    tell(SPSR);
    tell(SPDR);
    tell(SPSR);
    SPCR = 1 << SPE | 1 << MSTR;
    __builtin_avr_delay_cycles(4);
    tell(SPCR);
    PORTB |= 1 << PB1;
    SPCR = 1 << SPE | 1 << MSTR;
    tell(SPCR);
    tell('D');
    DDRB |= 1 << PB2;
    SPCR = 1 << SPIE | 1 << SPE | 1 << MSTR;
    (void)SPSR;
    (void)SPDR;
    got = 0;
    sei();
    SPDR = 0x3A;
    while (!got) {}
    cli();
    tell(got);
    tell(SPSR);
    tell('Z');
    for (;;) {}
}
