/* Moves pin 13 twice in six cycles for 16,000,000 cycles; then it sleeps with interrupts off, at which simavr ends.
   With TRACE simavr writes that pin as a VCD. */
#include <avr/interrupt.h>
#include <avr/io.h>
#include <avr/sleep.h>
#ifdef TRACE
#include "/usr/include/simavr/avr/avr_mcu_section.h"
AVR_MCU(16000000, "atmega328p");
AVR_MCU_VCD_FILE("pin.vcd", 1000);
AVR_MCU_VCD_PORT_PIN('B', 5, "pin13");
#endif
#define MOVE asm volatile("sbi 0x05, 5\n\tcbi 0x05, 5\n\trjmp .+0");
#define TEN MOVE MOVE MOVE MOVE MOVE MOVE MOVE MOVE MOVE MOVE
#define HUNDRED TEN TEN TEN TEN TEN TEN TEN TEN TEN TEN
int main(void)
{
    DDRB |= 1 << 5;
    for (uint16_t i = 0; i < 26600; i++) { HUNDRED }
    cli();
    sleep_enable();
    sleep_cpu();
    for (;;) { }
}
