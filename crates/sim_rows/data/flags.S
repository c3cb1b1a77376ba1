; Within a cycle the core acts first, and then each unit: what timer 0 does in a cycle is read in the next one.
; Port B and port D show TIFR0 and TCNT0 as read in following cycles; then a count that was written and stays for its
; cycle, and the prescaler by 8, which GTCCR restarts and TCCR0B does not.
; avr-gcc -mmcu=atmega328p -nostdlib -o a.elf flags.S && avr-objcopy -O ihex a.elf flags.hex
#define __SFR_OFFSET 0
#include <avr/io.h>
        ldi r20, 0xFF
        out DDRB, r20
        out DDRD, r20
        ldi r20, 0xFE
        ldi r21, 1
        ldi r22, 2
        out TCNT0, r20
        out TCCR0B, r21         ; counts 0xFE here
        in r0, TIFR0            ; counts 0xFF here, which sets TOV0 (and matches of 0 come in the next cycle)
        in r1, TIFR0
        in r2, TIFR0
        in r3, TCNT0
        out PORTB, r0
        out PORTB, r1
        out PORTB, r2
        out PORTD, r3
        out TCNT0, r22
        in r4, TCNT0
        in r5, TCNT0
        out PORTD, r4
        out PORTD, r5
        out TCCR0B, r0          ; stops
        out TCNT0, r0
        out GTCCR, r21          ; cycle r
        out TCCR0B, r22         ; by 8: ticks in r + 8, r + 16
        nop
        nop
        nop
        out TCCR0B, r0
        out TCCR0B, r22
        nop
        in r6, TCNT0            ; cycle r + 8
        in r7, TCNT0
        out PORTD, r6
        out PORTD, r7
        in r8, GTCCR
        out PORTB, r8
        .word 0xFFFF            ; halts
