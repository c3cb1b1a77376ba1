; Addresses where no register is: 0xFF is written to each and then read. Port D shows how many read 0 (mod 256), port B
; the bits that any of them showed.
; avr-gcc -mmcu=atmega328p -nostdlib -o a.elf left-out.S && avr-objcopy -O ihex a.elf left-out.hex
#define __SFR_OFFSET 0
#include <avr/io.h>
        rjmp main
spans:  .byte 0x20, 0x22, 0x2C, 0x34, 0x38, 0x3A, 0x49, 0x49, 0x4F, 0x52, 0x55, 0x5C, 0x61, 0x67, 0x6A, 0x6A
        .byte 0x71, 0x77, 0x7D, 0x7F, 0x82, 0x83, 0x8C, 0xAF, 0xB5, 0xB7, 0xBA, 0xBA, 0xBD, 0xBF, 0xC3, 0xC3, 0xC7, 0xFF
end:
main:   ldi r16, 0xFF
        out DDRD, r16
        out DDRB, r16
        clr r27
        ldi r30, lo8(spans)
        ldi r31, hi8(spans)
span:   lpm r26, Z+
        lpm r17, Z+
next:   st X, r16
        ld r18, X
        or r19, r18
        tst r18
        brne full
        inc r20
full:   cp r26, r17
        breq done
        inc r26
        rjmp next
done:   cpi r30, lo8(end)
        brne span
        out PORTD, r20
        out PORTB, r19
        .word 0xFFFF            ; halts
