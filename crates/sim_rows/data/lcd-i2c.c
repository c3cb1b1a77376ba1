// avr-gcc -mmcu=atmega328p -Os -o a.elf lcd-i2c.c && avr-objcopy -O ihex -R .eeprom a.elf lcd-i2c.hex
// Text displays by I2C: those at 27 in the order of the backpack's library, a transmission for each byte of the expander, and one
// at 3F with all bytes in one. What the TWI says is sent on Serial.
#include <avr/io.h>
#include <avr/sleep.h>
#include <stdint.h>

enum { GO = 1 << TWINT | 1 << TWEN, ACK = 1 << TWEA, START = 1 << TWSTA, STOP = 1 << TWSTO };
enum { RS = 1, RW = 2, E = 4, LIGHT = 8 };

static uint8_t address = 0x27, refused;

static void send(uint8_t x)
{
    while (!(UCSR0A & 1 << UDRE0)) {}
    UDR0 = x;
}

static uint8_t act(uint8_t twcr)
{
    TWCR = GO | twcr;
    while (!(TWCR & 1 << TWINT)) {}
    return TWSR;
}

static uint8_t out(uint8_t x)
{
    TWDR = x;
    return act(0);
}

static void stop(void)
{
    TWCR = GO | STOP;
    while (TWCR & 1 << TWSTO) {}
}

// A byte for the expander, in a transmission of its own.
static void expander(uint8_t x)
{
    if (act(START) != 0x08) refused++;
    if (out(address << 1) != 0x18) refused++;
    if (out(x | LIGHT) != 0x28) refused++;
    stop();
}

static void four(uint8_t x)
{
    expander(x);
    expander(x | E);
    expander(x);
}

static void say(uint8_t x, uint8_t rs)
{
    four((x & 0xF0) | rs);
    four(x << 4 | rs);
}

static void text(const char *s)
{
    while (*s) say(*s++, RS);
}

static void begin(void)
{
    expander(0);
    four(0x30);
    four(0x30);
    four(0x30);
    four(0x20);
    say(0x28, 0);
    say(0x0C, 0);
    say(0x01, 0);
    say(0x06, 0);
}

// A byte of a transmission that goes on: a fall of E for each half.
static void more(uint8_t x, uint8_t rs)
{
    out((x & 0xF0) | rs | E);
    out((x & 0xF0) | rs);
    out(x << 4 | rs | E);
    out(x << 4 | rs);
}

int main(void)
{
    UCSR0A = 1 << U2X0;
    UCSR0B = 1 << TXEN0;
    PORTC = 1 << PC4 | 1 << PC5;
    TWBR = 12;                  // 400 kHz

    begin();
    text("hello, backpack!");
    say(0xC0, 0);
    text("line 2");
    send(refused);              // 00

    act(START);
    send(out(0x26 << 1));       // 20: nobody is at a neighbour's address
    stop();

    act(START);
    send(out(0x3F << 1));       // 18
    out(0x20 | E);
    out(0x20);
    more(0x28, 0);
    more(0x0C, 0);
    more('o', RS);
    more('n', RS);
    out(0x40 | RS | E);
    out(0x40 | RS | RW);        // RW 1 where E falls: no half
    out(0x40 | RS | RW | E);
    out(0x40 | RS);             // 4
    out(0x20 | E);
    out(0x20 | RS);             // and 2, whose RS is the one behind the fall
    out(0x50 | RS | E);
    send(out(0x50 | RS | E));   // 28, and E is still 1
    send(act(START));           // 10
    send(out(0x3F << 1 | 1));   // 40
    send(act(ACK));             // 50
    send(TWDR);                 // FF
    send(act(0));               // 58
    send(TWDR);                 // FF
    send(act(START));           // 10
    send(out(0x3F << 1));       // 18
    send(out(0x60 | RS));       // 28: E fell at last, with 6
    out(0x10 | RS | E);
    out(0x10 | RS);             // and 1
    stop();

    sleep_enable();
    sleep_cpu();
    for (;;) {}
}
