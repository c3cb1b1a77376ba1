; WDP 15 counts as 9: 131,072,000 cycles, in power-down.
; avr-gcc -mmcu=atmega328p -nostdlib -o a.elf watchdog-longest.S && avr-objcopy -O ihex a.elf watchdog-longest.hex
#define __SFR_OFFSET 0
#include <avr/io.h>
        rjmp main
        .org 0x18               ; WDT
        sbi PINB, 5             ; 131,072,018: entered in 131,072,010
        reti
main:   sbi DDRB, 5             ; 2
        ldi r16, 0x18           ; 4
        ldi r17, 0x67           ; 5: WDIE, WDP 15
        ldi r18, 0x05           ; 6
        out SMCR, r18           ; 7
        sei                     ; 8
        sts WDTCSR, r16         ; 9: it begins to run
        sts WDTCSR, r17         ; 11
        sleep                   ; 13
        sbi PINC, 0
        .word 0xFFFF
