; SLEEP in another mode than idle and power-down halts the core, and no interrupt ends that: pin 6 goes on by timer 0, pin 13 stays.
; avr-gcc -mmcu=atmega328p -nostdlib -o a.elf halt.S && avr-objcopy -O ihex a.elf halt.hex
#define __SFR_OFFSET 0
#include <avr/io.h>
        rjmp main
        .org 0x38               ; TIMER0_COMPA
        sbi PINB, 5
        reti
main:   sbi DDRB, 5
        sbi DDRD, 6
        ldi r16, 63
        out OCR0A, r16
        ldi r16, 0x42
        out TCCR0A, r16
        ldi r16, 2
        sts TIMSK0, r16
        ldi r16, 3              ; ADC noise reduction
        out SMCR, r16
        sei
        ldi r16, 1
        out TCCR0B, r16
        sleep
        sbi PINB, 5
