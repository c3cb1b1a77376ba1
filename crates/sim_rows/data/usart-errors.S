; What the receiver makes of frames that are not as they should be, and what waits, is dropped or goes on. Pin 8 makes
; the frames, 16 cycles a bit, and is wired to pin 0. A0 to A5 show UCSR0A 7:2, pins 9 to 13 the low bits of UDR0.
; avr-gcc -mmcu=atmega328p -nostdlib -o a.elf usart-errors.S && avr-objcopy -O ihex a.elf usart-errors.hex
#define __SFR_OFFSET 0
#include <avr/io.h>
        .macro bit value
        .if \value
        sbi PORTB, 0
        .else
        cbi PORTB, 0
        .endif
        .rept 14
        nop
        .endr
        .endm
        .macro frame v0, v1, v2, v3, v4, v5, v6, v7, v8
        bit 0
        bit \v0
        bit \v1
        bit \v2
        bit \v3
        bit \v4
        bit \v5
        bit \v6
        bit \v7
        bit \v8
        .endm
        .macro let register, value
        ldi r16, \value
        sts \register, r16
        .endm
        .macro show
        lds r17, UCSR0A
        lsr r17
        lsr r17
        out PORTC, r17
        lds r18, UDR0
        lsl r18
        andi r18, 0x3E
        ori r18, 1
        out PORTB, r18
        .endm

        ldi r16, 0x3F
        out DDRB, r16
        out DDRC, r16
        ldi r16, 1
        out PORTB, r16
        let UCSR0B, 0x18        ; RXEN0, TXEN0

        frame 1, 0, 1, 0, 0, 0, 0, 0, 0         ; 0x05 with a stop bit of 0: FE0
        bit 1
        show
        bit 1
        let UCSR0C, 0x26        ; even parity
        frame 1, 1, 0, 0, 0, 0, 0, 0, 1         ; 0x03 with a 1 for parity: UPE0
        bit 1
        show
        bit 1
        let UCSR0C, 0x06
        frame 1, 0, 0, 0, 0, 0, 0, 0, 1         ; 0x01, 0x02 and 0x04 come in unread: the third one is lost
        frame 0, 1, 0, 0, 0, 0, 0, 0, 1
        frame 0, 0, 1, 0, 0, 0, 0, 0, 1
        show                                    ; DOR0
        show
        show                                    ; empty
        cbi PORTB, 0                            ; too short for a start bit
        nop
        sbi PORTB, 0
        .rept 200
        nop
        .endr
        show
        bit 0
        bit 1
        let UCSR0B, 0x08                        ; RXEN0 cleared in a frame
        .rept 160
        nop
        .endr
        show
        let UDR0, 0x41                          ; goes out
        let UDR0, 0x42                          ; waits
        let UDR0, 0x43                          ; is dropped
        show
        let UCSR0B, 0x00                        ; both go out all the same
        .rept 330
        nop
        .endr
        let UDR0, 0x44                          ; is dropped
        show
        .word 0xFFFF                            ; halts
