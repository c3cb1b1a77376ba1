; Conversions that end the core's sleep: 25 clocks of the ADC for the first one and 13 for the others, at each divisor.
; Ports D and B show ADCL and ADCH. A0 has a potentiometer, A1 a supply, A2 nothing; then channels 8 and 14 and, with
; ADLAR, the potentiometer again.
; avr-gcc -mmcu=atmega328p -nostdlib -o a.elf adc.S && avr-objcopy -O ihex a.elf adc.hex
#define __SFR_OFFSET 0
#include <avr/io.h>
        rjmp main
table:  .byte 0x00, 0xC9, 0x01, 0xC8, 0x00, 0xCA, 0x02, 0xCB, 0x41, 0xCC, 0x08, 0xCD, 0x00, 0xCE, 0x0E, 0xCF, 0x20, 0xC9
end:
        .org 0x54               ; ADC
        lds r18, ADCL
        lds r19, ADCH
        out PORTD, r18
        out PORTB, r19
        reti
main:   ldi r16, 0xFF
        out DDRD, r16
        out DDRB, r16
        ldi r16, 1
        out SMCR, r16
        ldi r30, lo8(table)
        ldi r31, hi8(table)
        sei
next:   lpm r16, Z+
        lpm r17, Z+
        sts ADMUX, r16
        sts ADCSRA, r17
        sleep
        cpi r30, lo8(end)
        brne next
        .word 0xFFFF            ; halts
