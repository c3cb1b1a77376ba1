; A sleeping core and what ends its sleep: a requested interrupt, in each cycle anew, and with I clear nothing at all.
; Timer 0 toggles pin 6 every 64 cycles. Pin 13 shows its interrupts and pin 12 what the core does behind SLEEP; the
; third interrupt leaves I clear.
; avr-gcc -mmcu=atmega328p -nostdlib -o a.elf sleep.S && avr-objcopy -O ihex a.elf sleep.hex
#define __SFR_OFFSET 0
#include <avr/io.h>
        rjmp main
        .org 0x38               ; TIMER0_COMPA
        sbi PINB, 5
        dec r18
        breq last
        reti
last:   ret
main:   sbi DDRB, 4
        sbi DDRB, 5
        sbi DDRD, 6
        ldi r18, 3
        ldi r16, 63
        out OCR0A, r16
        ldi r16, 0x42
        out TCCR0A, r16
        ldi r16, 2
        sts TIMSK0, r16
        ldi r16, 1
        out SMCR, r16
        sei
        out TCCR0B, r16
stay:   sleep
        sbi PINB, 4
        rjmp stay
