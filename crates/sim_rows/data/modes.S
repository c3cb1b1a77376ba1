; What a timer keeps when its mode changes: the compare latch of pin 6, an OCR value that waits, and the direction.
; Ports B and C show TCNT0, its bits 5 to 0 and 7 to 6.
; avr-gcc -mmcu=atmega328p -nostdlib -o a.elf modes.S && avr-objcopy -O ihex a.elf modes.hex
#define __SFR_OFFSET 0
#include <avr/io.h>
        .macro let register, value
        ldi r16, \value
        out \register, r16
        .endm
        .macro ticks n
        out TCCR0B, r17
        .rept \n - 1
        nop
        .endr
        out TCCR0B, r0
        .endm
        .macro show
        in r18, TCNT0
        out PORTB, r18
        swap r18
        lsr r18
        lsr r18
        andi r18, 3
        out PORTC, r18
        .endm

        let DDRB, 0x3F
        let DDRC, 0x03
        let DDRD, 0x40
        ldi r17, 1
        let OCR0A, 5
        let TCCR0A, 0xC0        ; normal, set on a match
        ticks 6                 ; the last one finds 5
        let TCCR0A, 0x00        ; pin 6 is its port's
        let TCCR0A, 0x83        ; fast PWM: the latch of before
        let OCR0A, 9            ; waits
        let TCCR0A, 0x81        ; phase correct PWM: the same latch
        let TCCR0A, 0x80        ; normal, clear on a match
        let TCNT0, 4
        ticks 2                 ; finds 5 and not 9
        let TCCR0A, 0xC3        ; fast PWM: set on a match, cleared at TOP
        let TCNT0, 0xFE
        ticks 3                 ; 9 becomes active at 0xFF
        let TCNT0, 5
        ticks 4                 ; finds no 5
        ticks 1                 ; finds 9
        show
        let TCCR0A, 0x01        ; phase correct PWM, up since reset
        let TCNT0, 0xFD
        ticks 4                 ; 0xFE, 0xFF, and down: 0xFE, 0xFD
        show
        let TCCR0A, 0x00        ; normal
        ticks 2                 ; 0xFE, 0xFF
        let TCNT0, 0x20
        let TCCR0A, 0x01        ; phase correct PWM: down as before
        ticks 3
        show
        .word 0xFFFF            ; halts
