/* Sleeps, and is woken by timer 0 each millisecond, 10 s long; then it sleeps with interrupts off, at which simavr ends. */
#include <avr/io.h>
#include <avr/interrupt.h>
#include <avr/sleep.h>
static volatile uint16_t ticks;
ISR(TIMER0_COMPA_vect) { ticks++; }
int main(void)
{
    TCCR0A = 1 << WGM01;
    OCR0A = 249;
    TIMSK0 = 1 << OCIE0A;
    TCCR0B = (1 << CS01) | (1 << CS00);
    sei();
    sleep_enable();
    while (ticks < 9990)
        sleep_cpu();
    cli();
    sleep_cpu();
    for (;;) { }
}
