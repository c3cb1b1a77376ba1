; The watchdog's interrupt out of power-down, by hand: timer 1 counts from cycle 11, 5 up to SLEEP in cycle 16, and goes on in the
; cycle of the entry, 256,006. Port D shows what it reads in the vector: 13 and 32.
; avr-gcc -mmcu=atmega328p -nostdlib -o a.elf watchdog-wakes.S && avr-objcopy -O ihex a.elf watchdog-wakes.hex
#define __SFR_OFFSET 0
#include <avr/io.h>
        rjmp main               ; 0
        .org 0x18               ; WDT
        lds r20, TCNT1L         ; 256,014 and 512,014: 8 cycles after the entry
        lds r21, TCNT1H
        out PORTD, r20          ; 256,018
        reti                    ; 256,019
main:   ldi r16, 0xFF           ; 2
        out DDRD, r16           ; 3
        ldi r16, 0x18           ; 4
        sts WDTCSR, r16         ; 5: it begins to run
        ldi r16, 0x40           ; 7
        sts WDTCSR, r16         ; 8
        ldi r16, 0x01           ; 10
        sts TCCR1B, r16         ; 11
        ldi r16, 0x05           ; 13
        out SMCR, r16           ; 14
        sei                     ; 15
1:      sleep                   ; 16, and 256,025, where 35 cycles were spent awake
        rjmp 1b                 ; 256,023
