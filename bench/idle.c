/* Sleeps in idle between the overflows of timer 0 at 64, one each 1,024 microseconds, as a sketch does that waits for
   millis() and saves power; pin 13 changes at each.
   avr-gcc -mmcu=atmega328p -O1 -o idle.elf idle.c && avr-objcopy -O ihex -R .eeprom idle.elf idle.hex */
#include <avr/interrupt.h>
#include <avr/io.h>
#include <avr/sleep.h>

ISR(TIMER0_OVF_vect) { PINB = 1 << PB5; }

int main(void)
{
    DDRB = 1 << PB5;
    TCCR0A = 1 << WGM01 | 1 << WGM00;
    TCCR0B = 1 << CS01 | 1 << CS00;
    TIMSK0 = 1 << TOIE0;
    sei();
    for (;;)
        sleep_mode();
}
