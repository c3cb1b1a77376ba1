; A START at the greatest rate, by hand: TWCR is written in cycle 3, SDA falls behind cycle 19 and SCL behind cycle 27, and
; port D shows the status.
; avr-gcc -mmcu=atmega328p -nostdlib -o a.elf twi-start.S && avr-objcopy -O ihex a.elf twi-start.hex
#define __SFR_OFFSET 0
#include <avr/io.h>
        ldi r16, 0x30           ; cycle 0: pull-ups
        out PORTC, r16          ; 1
        ldi r17, 0xA4           ; 2: TWINT, TWSTA, TWEN
        sts TWCR, r17           ; 3
        ldi r18, 0xFF           ; 5
        out DDRD, r18           ; 6
        .rept 20
        nop                     ; 7 to 26
        .endr
        lds r18, TWSR           ; 27: not yet
        out PORTD, r18          ; 29
        lds r18, TWSR           ; 30
        out PORTD, r18          ; 32
end:    rjmp end
