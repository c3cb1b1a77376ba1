// avr-gcc -mmcu=atmega328p -Os -o a.elf keypad.c && avr-objcopy -O ihex -R .eeprom a.elf keypad.hex
// A keypad: rows 1 to 4 on pins 9, 8, 7 and 6 with their pull-ups, columns 1 to 4 on pins 5, 4, 3 and 2. Each millisecond one column
// after the other is pulled low, and the rows that read 0 then are sent as bits, row 1 in bit 0: four bytes a millisecond.
#define F_CPU 16000000UL
#include <avr/io.h>
#include <avr/sleep.h>
#include <util/delay.h>
#include <stdint.h>

static uint8_t rows(void)
{
    uint8_t found = 0;
    if (!(PINB & 2)) found |= 1;
    if (!(PINB & 1)) found |= 2;
    if (!(PIND & 0x80)) found |= 4;
    if (!(PIND & 0x40)) found |= 8;
    return found;
}

int main(void)
{
    UBRR0 = 0;
    UCSR0A = 1 << U2X0;
    UCSR0B = 1 << TXEN0;
    PORTB = 3;
    PORTD = 0xC0;
    for (uint8_t scan = 0; scan < 8; scan++) {
        for (uint8_t pin = 5; pin >= 2; pin--) {
            DDRD = 1 << pin;
            _delay_us(10);
            uint8_t found = rows();
            DDRD = 0;
            while (!(UCSR0A & 1 << UDRE0)) {}
            UDR0 = found;
        }
        _delay_us(940);
    }
    set_sleep_mode(SLEEP_MODE_IDLE);
    sleep_enable();
    sleep_cpu();
}
