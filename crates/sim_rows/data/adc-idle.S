; Conversions that entering idle sleep begins where ADEN is set and none is on the way (data sheet, "Idle Mode"). Pin 13
; shows their interrupts, and port D what ADCSRA reads: 88 behind a SLEEP that does nothing, CA where a timer ends sleep
; before the conversion that it began, 08 behind sleep without ADEN.
; avr-gcc -mmcu=atmega328p -nostdlib -o a.elf adc-idle.S && avr-objcopy -O ihex a.elf adc-idle.hex
#define __SFR_OFFSET 0
#include <avr/io.h>
        rjmp main
        .org 0x38               ; TIMER0_COMPA
        out TCCR0B, r1
        out TCNT0, r1
        reti
        .org 0x54               ; ADC
        sbi PINB, 5
        reti
main:   sbi DDRB, 5
        ldi r16, 0xFF
        out DDRD, r16
        ldi r16, 20
        out OCR0A, r16
        ldi r16, 2
        out TCCR0A, r16
        sts TIMSK0, r16
        ldi r20, 1
        sei

        ldi r17, 0x88           ; ADEN, ADIE, a divisor of 2
        sts ADCSRA, r17
        sleep                   ; without SE
        lds r18, ADCSRA
        out PORTD, r18
        out SMCR, r20
        sleep                   ; 25 clocks
        sleep                   ; 13 clocks

        ldi r17, 0xC8
        sts ADCSRA, r17
        nop
        nop
        nop
        sleep                   ; begins none, since one is on the way

        ldi r17, 0x8A           ; a divisor of 4
        sts ADCSRA, r17
        out TCCR0B, r20
        sleep                   ; which the timer ends
        lds r18, ADCSRA
        out PORTD, r18
        sleep                   ; which the conversion ends

        ldi r17, 0x08
        sts ADCSRA, r17
        out TCCR0B, r20
        sleep                   ; without ADEN
        lds r18, ADCSRA
        out PORTD, r18

        ldi r17, 0x88
        sts ADCSRA, r17
        sleep                   ; 25 clocks again
        .word 0xFFFF            ; halts
