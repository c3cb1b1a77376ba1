// avr-gcc -mmcu=atmega328p -Os -o a.elf twi-bus.c && avr-objcopy -O ihex -j .text a.elf twi-bus.hex
// What the TWI does on a bus that is not free, where TWEN is cleared, where its registers are written in an action, at each
// prescaler, and by its interrupt. Pins 2 and 3 are wired to SDA and SCL, and are Low or inputs.
#include <avr/interrupt.h>
#include <avr/io.h>
#include <avr/sleep.h>
#include <stdint.h>

enum { WRITE = 1 << TWINT | 1 << TWEN, START = 1 << TWSTA, STOP = 1 << TWSTO };

static void send(uint8_t x)
{
    while (!(UCSR0A & 1 << UDRE0)) {}
    UDR0 = x;
}

static void tell(void)
{
    send(TWSR);
    send(TWDR);
    send(TWCR);
    send(TWBR);
}

static void wait(uint8_t turns)
{
    while (turns--) PINB;
}

static void end(void)
{
    while (!(TWCR & 1 << TWINT)) {}
    tell();
}

static void stop(uint8_t turns)
{
    TWCR = WRITE | STOP;
    wait(turns);
    tell();
    while (TWCR & 1 << TWSTO) {}
    tell();
}

ISR(TWI_vect)
{
    tell();                     // TWINT is still set
    TWCR = 1 << TWEN;
}

int main(void)
{
    UCSR0A = 1 << U2X0;
    UCSR0B = 1 << TXEN0;
    TWCR = WRITE | START;       // no pull-up: the lines read 0, and the START waits
    wait(100);
    tell();
    PORTC = 1 << PC4;           // SDA alone is High
    wait(50);
    tell();
    PORTC = 1 << PC4 | 1 << PC5;
    end();
    stop(2);

    DDRD = 1 << PD3;            // another one holds SCL
    TWCR = WRITE | START;
    wait(30);
    tell();
    DDRD = 0;
    end();
    DDRD = 1 << PD2;            // and SDA, before a repeated START
    TWCR = WRITE | START;
    wait(30);
    tell();
    DDRD = 0;
    end();
    DDRC = 1 << PC4 | 1 << PC5; // an output is let go too
    stop(0);
    DDRC = 0;

    TWBR = 20;
    for (uint8_t turns = 0; turns < 24; turns += 3) {
        TWCR = WRITE | START;   // given up in each of its thirds, and behind it
        wait(turns);
        TWCR = 0;
        tell();
        TWCR = 1 << TWEN;       // both lines are let go
        wait(2);
    }
    for (uint8_t turns = 0; turns < 60; turns += 7) {
        TWCR = WRITE | START;
        end();
        TWDR = 0x5A;
        TWCR = WRITE;           // a byte given up
        wait(turns);
        TWCR = 1 << TWINT;      // TWINT is cleared without TWEN too
        tell();
    }
    for (uint8_t turns = 0; turns < 12; turns += 3) {
        TWCR = WRITE | STOP;    // a STOP given up
        wait(turns);
        TWCR = 0;
        tell();
    }

    TWCR = WRITE | START;
    end();
    TWDR = 0x96;
    TWCR = WRITE;
    wait(3);
    TWDR = 0x33;                // the byte on the way stays
    TWBR = 0;                   // and so does its rate
    TWSR = 0xFE;
    TWCR = WRITE | START | STOP | 1 << TWEA;
    wait(3);
    tell();
    TWCR = WRITE | START;
    end();                      // 20
    TWCR = 1 << TWEN | START;   // TWINT is written 0: nothing begins
    wait(20);
    tell();
    TWCR = WRITE | START | STOP;
    TWSR = 0;                   // the START behind the STOP takes the new rate
    TWBR = 4;
    end();                      // 08
    TWCR = WRITE | STOP | START;
    TWCR = WRITE | STOP;        // what began has its START all the same
    end();
    stop(9);

    for (uint8_t i = 0; i < 4; i++) {
        TWBR = 3 - i;
        TWSR = i;
        TWCR = WRITE | START;
        end();
        TWDR = 0x7E;
        TWCR = WRITE;
        end();
        stop(0);
    }

    TWSR = 0;
    sei();
    TWCR = WRITE | START | 1 << TWIE;
    sleep_enable();
    sleep_cpu();                // vector 24 ends it
    tell();
    TWCR = WRITE | STOP | 1 << TWIE;
    wait(40);
    tell();                     // a STOP asks for nothing
    for (;;) {}
}
