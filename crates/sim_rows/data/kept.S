; Bits without a name are kept. Each register gets 0xFF and is read: ports D and B show what it gives and its address.
; avr-gcc -mmcu=atmega328p -nostdlib -o a.elf kept.S && avr-objcopy -O ihex a.elf kept.hex
#define __SFR_OFFSET 0
#include <avr/io.h>
        rjmp main
table:  .byte 0x3D, 0x3E, 0x43, 0x44, 0x4A, 0x4B, 0x53, 0x68, 0x69, 0x6B, 0x6C, 0x6D, 0x6E, 0x6F, 0x70, 0x7B, 0x7C, 0x80
        .byte 0x81, 0xB0, 0xB1, 0x2B, 0x35, 0x36, 0x37, 0x3B, 0x3C
end:
        .balign 2
main:   ldi r16, 0xFF
        out DDRD, r16
        out DDRB, r16
        clr r27
        ldi r30, lo8(table)
        ldi r31, hi8(table)
next:   lpm r26, Z+
        st X, r16
        ld r18, X
        st X, r0
        out PORTB, r26
        out PORTD, r18
        cpi r30, lo8(end)
        brne next
        .word 0xFFFF            ; halts
