; Each transfer of the SPI as a master: both orders, each idle level and phase of SCK, each divisor. MOSI is wired to
; MISO; port D shows what came in, and ports C and D the flags where SPDR is written too early and SS falls.
; avr-gcc -mmcu=atmega328p -nostdlib -o a.elf spi.S && avr-objcopy -O ihex a.elf spi.hex
#define __SFR_OFFSET 0
#include <avr/io.h>
        .macro flags
        in r18, SPSR
        swap r18
        lsr r18
        lsr r18
        out PORTC, r18
        .endm
        ldi r16, 0xFF
        out DDRD, r16
        out DDRC, r16
        ldi r16, 0x2C           ; SCK, MOSI, SS
        out DDRB, r16
        ldi r22, 0x53           ; what goes out
        clr r20                 ; SPI2X
speed:  out SPSR, r20
        ldi r21, 0x50           ; SPE, MSTR, and DORD, CPOL, CPHA and SPR1:0
format: out SPCR, r21
        out SPDR, r22
wait:   in r17, SPSR
        sbrs r17, SPIF
        rjmp wait
        in r18, SPDR
        out PORTD, r18
        inc r22
        inc r21
        cpi r21, 0x60
        brne over
        ldi r21, 0x70
over:   cpi r21, 0x80
        brne format
        tst r20
        brne end
        ldi r20, 1
        rjmp speed
end:    ldi r21, 0x50
        out SPCR, r21
        out SPDR, r22
        out SPDR, r21           ; WCOL
        flags
again:  in r17, SPSR
        sbrs r17, SPIF
        rjmp again
        flags                   ; SPIF and WCOL
        in r18, SPDR            ; clears both
        flags
        out SPDR, r22
        out SPCR, r20           ; given up: no flag
        .rept 40
        nop
        .endr
        flags
        ldi r21, 0x50
        out SPCR, r21
        out SPDR, r22
        cbi DDRB, 2             ; SS is an input at no level
        nop
        nop
        cbi PORTB, 2
        sbi PORTB, 2            ; its pull-up: High
        nop
        flags
        .rept 40
        nop
        .endr
        flags
        in r18, SPDR
        out PORTD, r18
        in r18, SPCR
        out PORTD, r18
        .word 0xFFFF            ; halts
