// avr-gcc -mmcu=atmega328p -Os -o a.elf lcd-8.c && avr-objcopy -O ihex -R .eeprom a.elf lcd-8.hex
// Text displays on eight data lines, pins 0 to 7. RS is pin 8, RW pin 9; E is a pin of its own for each: 10 to 13 and A0 to A5.
#include <avr/cpufunc.h>
#include <avr/io.h>
#include <avr/sleep.h>
#include <stdint.h>

enum { RS = 1 << PB0, RW = 1 << PB1 };

static volatile uint8_t *port;
static uint8_t e;

// The display that is spoken to from now on, 0 to 9.
static void to(uint8_t display)
{
    port = display < 4 ? &PORTB : &PORTC;
    e = display < 4 ? 1 << (PB2 + display) : 1 << (display - 4);
}

static void pulse(void)
{
    *port |= e;
    _NOP();
    *port &= ~e;
}

static void tell(uint8_t x)
{
    PORTB &= ~(RS | RW);
    PORTD = x;
    pulse();
}

static void write(uint8_t x)
{
    PORTB |= RS;
    PORTB &= ~RW;
    PORTD = x;
    pulse();
}

static void text(const char *s)
{
    while (*s) write(*s++);
}

int main(void)
{
    DDRD = 0xFF;
    DDRB = 0x3F;
    DDRC = 0x3F;

    to(0);
    tell(0x0C);
    write(0x41);

    to(1);                      // up, over the ends of the lines and from what holds nothing
    tell(0x0F);
    tell(0xA6);
    text("yzABCD");             // 26, 27, 40 to 43
    tell(0xE7);
    text("yEFGH");              // 67, 00 to 03
    tell(0xA8);
    text("nIJK");               // 28 holds nothing and counts as 27: 40 to 42
    tell(0xBF);
    text("nLM");                // so does 3F: 40 and 41
    tell(0xE8);
    text("nNOP");               // 68 counts as 67: 00 to 02
    tell(0xFF);
    text("nQR");                // so does 7F: 00 and 01

    to(2);                      // down, and up again
    tell(0x0C);
    tell(0x04);
    tell(0xC3);
    text("dcba");               // 43 to 40
    tell(0x06);
    text("y++");                // 27, 40, 41
    tell(0x04);
    tell(0x83);
    text("DCBA");               // 03 to 00
    tell(0x06);
    text("z**");                // 67, 00, 01
    tell(0x04);
    tell(0xA8);
    text("n");                  // 28 counts as 27
    tell(0x06);
    text("xy!");                // 26, 27, 40
    tell(0x04);
    tell(0xE8);
    text("n");                  // 68 counts as 67
    tell(0x06);
    text("wz@");                // 66, 67, 00

    to(3);                      // data vanish behind 40 to 7F, up to an address, the home or the clearing
    tell(0x0C);
    text("abc");
    tell(0x40);
    text("ABC");
    tell(0x83);
    write('d');
    tell(0x7F);
    text("XY");
    tell(0x02);
    write('q');
    tell(0x55);
    write('Z');
    tell(0x0C);                 // no other instruction ends it
    tell(0x14);
    tell(0x06);
    tell(0x38);
    write('Z');
    tell(0xC0);
    write('e');

    to(4);                      // the address moves by 14 and 10; 18 and 1C, which shift the display, do nothing
    tell(0x0C);
    text("abcd");
    tell(0x10);
    tell(0x13);
    text("C");                  // 02
    tell(0x14);
    tell(0x17);
    text("f");                  // 05
    tell(0x18);
    tell(0x1C);
    text("g");                  // 06
    tell(0x80);
    tell(0x10);
    text("z");                  // 67
    text("A");                  // 00
    tell(0xA7);
    tell(0x14);
    text("-");                  // 40

    to(5);                      // 01 clears both lines, ends vanishing and counts up; 02 and 03 leave text and direction
    tell(0x0C);
    text("abcdef");
    tell(0xC3);
    text("gh");
    tell(0x04);
    tell(0x48);
    tell(0x01);
    text("new");
    tell(0x04);
    tell(0x03);
    text("N");                  // 00, then 67
    tell(0xC2);
    text("3210");               // 42, 41, 40, 27
    tell(0x00);                 // no bit, no instruction

    to(6);                      // off: spaces, though data are kept until it is on
    text("before");
    tell(0x0D);
    tell(0x0B);
    text("!");

    to(7);
    text("before");
    tell(0x0B);
    text("!");
    tell(0x0C);

    to(8);                      // bytes beyond 20 to 7E are question marks
    tell(0x0C);
    for (uint8_t i = 0; i < 9; i++) write((uint8_t[]){0x00, 0x1F, 0x20, 0x21, 0x3F, 0x7E, 0x7F, 0x80, 0xFF}[i]);

    to(9);                      // E falls in the cycle in which data, RS or RW change: what they are then counts
    tell(0x0C);
    PORTB |= RS;
    PORTD = 'a';
    *port |= e;
    PORTD = 'b';                // while E is high
    *port &= ~e;
    PORTD = 'c';                // behind it
    PORTB |= RW;
    PORTD = 'd';
    pulse();                    // with RW 1 nothing is taken
    PORTB &= ~RW;
    *port |= e;
    PORTB |= RW;
    *port &= ~e;                // RW came before E fell
    PORTB &= ~RW;
    *port |= e;
    *port &= ~e;                // 'd'
    *port |= e;
    DDRC &= ~(1 << PC5);        // E is let go, but for its pull-up: it still reads 1
    PORTD = 'e';
    PORTC &= ~(1 << PC5);       // and without one it reads 0
    to(3);
    *port |= e;                 // a high E, RS 1 and data
    PORTD = 0xC1;
    PORTB = 0;                  // fall at once: an instruction
    write('f');

    sleep_enable();
    sleep_cpu();
    for (;;) {}
}
