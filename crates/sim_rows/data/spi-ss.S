; SPDR written in the very cycle in which SS falls, which is pin 10 as an input wired to pin 8: the transfer is given up before its
; first bit, and MOSI keeps the bit that was there before, once the SPI is master again. Low at first; then the last bit of a
; whole transfer, for bytes that begin with the other one.
; avr-gcc -mmcu=atmega328p -nostdlib -o a.elf spi-ss.S && avr-objcopy -O ihex a.elf spi-ss.hex
#define __SFR_OFFSET 0
#include <avr/io.h>
        .macro falls byte, before
        ldi r20, \byte
        .rept 1 - \before
        nop
        .endr
        out PORTB, r19          ; SS falls in the next cycle
        .rept \before
        nop
        .endr
        out SPDR, r20
        nop
        nop
        in r18, SPSR
        out PORTD, r18
        in r18, SPDR
        out PORTB, r17          ; SS is High again
        nop
        out SPCR, r21           ; master again
        nop
        nop
        .endm
        .macro sent byte
        ldi r20, \byte
        out SPDR, r20
        .rept 40
        nop
        .endr
        in r18, SPSR
        in r18, SPDR
        .endm
        ldi r16, 0xFF
        out DDRD, r16
        ldi r16, 0x29           ; SCK, MOSI, pin 8
        out DDRB, r16
        ldi r17, 0x01
        out PORTB, r17
        ldi r21, 0x50           ; SPE, MSTR
        out SPCR, r21
        ldi r19, 0x00
        nop
        falls 0xFF, 0
        sent 0x01
        falls 0x7F, 0
        sent 0x80
        falls 0xFF, 0
        sent 0x01
        falls 0x7F, 1           ; a cycle too late to be a transfer: the SPI is no master
        falls 0x7F, 0
1:      rjmp 1b
