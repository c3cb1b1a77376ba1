; A transfer of the SPI given up in each of its first cycles, by SPE alone, by MSTR alone, and by SS, which is pin 10 as an
; input wired to pin 9; then master mode again, with its clock idle at either level. Port D shows SPIF and WCOL, and SPCR.
; avr-gcc -mmcu=atmega328p -nostdlib -o a.elf spi-given-up.S && avr-objcopy -O ihex a.elf spi-given-up.hex
#define __SFR_OFFSET 0
#include <avr/io.h>
        .macro show
        in r18, SPSR
        out PORTD, r18
        in r18, SPCR
        out PORTD, r18
        in r18, SPDR
        .endm
        .macro given_up value, after
        ldi r22, 0x5A
        out SPCR, r21
        out SPDR, r22
        .rept \after
        nop
        .endr
        ldi r20, \value
        out SPCR, r20
        nop
        show
        out SPCR, r21           ; MOSI keeps its bit
        nop
        out SPDR, r22           ; a whole transfer
        .rept 40
        nop
        .endr
        show
        .endm
        ldi r16, 0xFF
        out DDRD, r16
        ldi r16, 0x06           ; pin 9 and SS are High
        out PORTB, r16
        ldi r16, 0x2E           ; SCK, MOSI, SS, pin 9
        out DDRB, r16
        ldi r21, 0x50           ; SPE, MSTR
        .irp after, 0, 1, 2, 3, 4, 5, 9, 30
        given_up 0x10, \after   ; SPE cleared
        given_up 0x40, \after   ; MSTR cleared
        .endr
        ldi r21, 0x58           ; CPOL
        given_up 0x18, 6
        given_up 0x48, 7
        cbi DDRB, 2             ; SS is an input, and High
        .irp after, 0, 1, 5, 30
        out SPCR, r21
        out SPDR, r22
        .rept \after
        nop
        .endr
        cbi PORTB, 1            ; SS falls: SPIF is set, MSTR cleared
        nop
        nop
        show
        sbi PORTB, 1
        nop
        nop
        out SPCR, r21           ; a whole transfer
        out SPDR, r22
        .rept 40
        nop
        .endr
        show
        .endr
        cbi PORTB, 1
        nop
        nop
        out SPCR, r21           ; SS is Low already
        nop
        show
        .word 0xFFFF            ; halts
