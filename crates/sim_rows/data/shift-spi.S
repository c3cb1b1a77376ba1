; A chain of 74HC595s moved by the SPI: MOSI is DS, SCK is SHCP, and SS, an output, is STCP; pin 9 is MR, pin 8 OE.
; avr-gcc -mmcu=atmega328p -nostdlib -o a.elf shift-spi.S && avr-objcopy -O ihex a.elf shift-spi.hex
#define __SFR_OFFSET 0
#include <avr/io.h>
        .macro send value
        ldi r16, \value
        out SPDR, r16
1:      in r16, SPSR
        sbrs r16, SPIF
        rjmp 1b
        .endm
        .macro store
        sbi PORTB, 2
        cbi PORTB, 2
        .endm
        sbi PORTB, 1
        ldi r16, 0x2F
        out DDRB, r16
        ldi r16, 0x50           ; the highest bit first, every 4 cycles
        out SPCR, r16
        send 0x81
        send 0x6E
        store
        ldi r16, 1              ; every 2 cycles
        out SPSR, r16
        send 0xF0
        send 0x0F
        store
        ldi r16, 0x71           ; the lowest bit first, every 8 cycles
        out SPCR, r16
        send 0x01
        send 0x36
        store
        ldi r16, 0x5C           ; SCK high between transfers: the edge that shifts is the second one
        out SPCR, r16
        send 0xC5
        send 0x17
        store
        sbi PORTB, 0
        cbi PORTB, 1
        cbi PORTB, 0
        sbi PORTB, 1
        store
end:    rjmp end
