// avr-gcc -mmcu=atmega328p -Os -o a.elf twi.c && avr-objcopy -O ihex -j .text a.elf twi.hex
// A master with a slave on the same Uno: pins 2 and 3 are wired to SDA and SCL, and are Low or inputs. What the registers
// read after each action is sent on Serial.
#include <avr/io.h>
#include <stdint.h>

enum { WRITE = 1 << TWINT | 1 << TWEN, ACK = 1 << TWEA, START = 1 << TWSTA, STOP = 1 << TWSTO };

static void send(uint8_t x)
{
    while (!(UCSR0A & 1 << UDRE0)) {}
    UDR0 = x;
}

static void tell(void)
{
    send(TWSR);
    send(TWDR);
    send(TWCR);
}

static void act(uint8_t twcr)
{
    TWCR = WRITE | twcr;
    while (!(TWCR & 1 << TWINT)) {}
    tell();
}

// Nine bits, while the slave has its own on SDA, the highest first: it pulls where they are 0.
static void nine(uint8_t twcr, uint16_t bits)
{
    TWCR = WRITE | twcr;
    for (uint8_t i = 0; i < 9; i++) {
        while ((PINC & 1 << PC5) && !(TWCR & 1 << TWINT)) {}
        if (bits & 0x100) DDRD &= ~(1 << PD2);
        else DDRD |= 1 << PD2;
        bits <<= 1;
        while (!(PINC & 1 << PC5) && !(TWCR & 1 << TWINT)) {}
    }
    while (!(TWCR & 1 << TWINT)) {}
    DDRD &= ~(1 << PD2);
    tell();
}

static void out(uint8_t byte, uint16_t bits)
{
    TWDR = byte;
    nine(0, bits);
}

// After this status nothing happens.
static void nothing(void)
{
    TWCR = WRITE;
    for (uint8_t i = 0; i < 100; i++) PINB;
    tell();
}

static void stop(void)
{
    TWCR = WRITE | STOP;
    while (TWCR & 1 << TWSTO) {}
    tell();
}

int main(void)
{
    UCSR0A = 1 << U2X0;
    UCSR0B = 1 << TXEN0;
    PORTC = 1 << PC4 | 1 << PC5;
    TWBR = 40;
    tell();
    nothing();                  // F8
    act(START);                 // 08
    out(0xA4, 0x1FE);           // 18
    out(0x35, 0x1FE);           // 28
    out(0xCA, 0x1FF);           // 30
    out(0x0F, 0x1FE);           // 28
    act(START);                 // 10
    out(0xA5, 0x1FE);           // 40
    nine(ACK, 0x96 << 1 | 1);   // 50
    nine(0, 0x69 << 1 | 1);     // 58
    nothing();
    act(STOP | START);          // 08
    out(0x52, 0x1FF);           // 20
    out(0x81, 0x1FF);           // 30
    act(START);                 // 10
    out(0x53, 0x1FF);           // 48
    nothing();
    stop();                     // F8
    nothing();
    act(START);
    out(0xFE, 0x17F);           // 38 in an address
    nothing();
    act(START);                 // 08: SCL was let go
    out(0x01, 0x1FE);           // 40
    nine(0, 0x5A << 1);         // 38 where this one's NACK meets the ACK of another
    act(START);
    out(0x20, 0x1FE);           // 18
    out(0x11, 0x1FD);           // 38 in the last bit of a byte
    act(START);
    out(0x20, 0x0FE);           // the slave pulls where a 0 is sent: no bit is lost
    stop();
    for (;;) {}
}
