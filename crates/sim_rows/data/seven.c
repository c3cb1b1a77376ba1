// avr-gcc -mmcu=atmega328p -Os -o a.elf seven.c && avr-objcopy -O ihex -R .eeprom a.elf seven.hex
// Segments A to G and DP are pins 0 to 7; one COM is pin 8, another one pin 9.
#define F_CPU 16000000
#include <avr/io.h>
#include <stdint.h>
#include <util/delay.h>

int main(void)
{
    _delay_us(10);              // no pin drives
    DDRD = 0xFF;
    DDRB = 0x03;
    PORTB = 0x01;
    PORTD = 0x5B;               // a 2 on a common cathode
    _delay_us(10);
    PORTB = 0x02;
    PORTD = 0x86;               // a 1 with its point
    _delay_us(10);
    PORTB = 0x01;
    DDRD = 0x0F;                // E to DP are let go; DP has its pull-up
    for (;;) {}
}
