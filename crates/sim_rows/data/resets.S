; Resets of the watchdog in the middle of things. R is the cycle in whose step the time is out, 256,000 after WDR; the next one is
; cycle 0 of every unit but the watchdog and the EEPROM. R2 counts the resets, and R16 is what the first instruction after one
; writes to PCMSK0. Port D shows what registers read then, pin 8 changes with it, and timer 2 changes pin 11 by 64 cycles.
; avr-gcc -mmcu=atmega328p -nostdlib -o a.elf resets.S && avr-objcopy -O ihex a.elf resets.hex
#define __SFR_OFFSET 0
#include <avr/io.h>
        .macro show register
        out PORTD, \register
        sbi PINB, 0
        .endm
        .macro read address
        lds r18, \address
        show r18
        .endm
        .macro pause cycles     ; from 5 to 262,144
        ldi r24, lo8((\cycles - 1) / 4)
        ldi r25, hi8((\cycles - 1) / 4)
9:      sbiw r24, 1
        brne 9b
        .rept (\cycles - 1) % 4
        nop
        .endr
        .endm
        .macro put address, value
        ldi r17, \value
        sts \address, r17
        .endm
        .macro until before     ; to so many cycles before R
        wdr
        pause 255999 - \before
        .endm

        sts PCMSK0, r16         ; 0
        in r18, PINB            ; 2
        in r19, PCIFR           ; 3: pin 8 was High in R, and is let go
        ldi r20, 0xFF           ; 4
        out DDRD, r20           ; 5
        sbi DDRB, 0             ; 6
        sbi DDRB, 3             ; 8
        put TCCR2A, 0x42        ; 10: toggles pin 11 each 64 cycles
        put TCCR2B, 0x04        ; 13
        show r18
        show r19
        in r18, MCUSR
        show r18
        in r18, SPL
        show r18
        in r18, SREG
        show r18
        in r18, SMCR
        show r18
        in r18, GPIOR0
        show r18
        in r18, TIFR0
        show r18
        in r18, TCNT0
        show r18
        in r18, EECR
        show r18
        in r18, EEARL
        show r18
        read WDTCSR
        read ADCSRA
        read UCSR0A
        read SPSR + 0x20
        read TWSR
        read TWCR
        read OCR1AH
        read 0x08FE
        read 0x08FF
        ldi r17, 5
        out EEARL, r17
        sbi EECR, EERE
        in r18, EEDR
        show r18
        pause 200
        sts TCCR2B, r1
; what a reset is to end
        ldi r17, 0x5A
        out GPIOR0, r17
        out TCNT0, r17
        out TCCR0B, r20
        out TIFR0, r20
        out SPL, r17
        put OCR1AH, 0x12
        sts OCR1AL, r17
        put PCICR, 0x01
        put 0x71, 0             ; no register is there
        put WDTCSR, 0x08
        inc r2
        .irp n, 1, 2, 3, 4, 5, 6, 7, 8, 9, 10, 11, 12, 13, 14
        ldi r17, \n
        cpse r2, r17
        rjmp 1f
        jmp case_\n
1:
        .endr
        .word 0xFFFF

; a frame of the USART, in its fourth bit; pin 8 is High up to R, and its change in cycle 0 is seen
case_1: put UBRR0L, 9
        put UCSR0B, 0x08
        ldi r16, 0x01
        sbi PORTB, 0
        until 700
        put UDR0, 0x5A
1:      rjmp 1b
; a frame that ends in R, with another one waiting: one byte leaves; pin 8 falls in R, and is not seen
case_2: put UBRR0L, 0
        put UCSR0B, 0x08
        sbi PORTB, 0
        ldi r17, 0x33
        until 160
        sts UDR0, r17
        sts UDR0, r16
        pause 155
        cbi PORTB, 0
1:      rjmp 1b
; one that would end in the cycle after R
case_3: put UBRR0L, 0
        put UCSR0B, 0x08
        ldi r16, 0x00
        ldi r17, 0x44
        until 159
        sts UDR0, r17
1:      rjmp 1b
; a byte of the SPI, by 128
case_4: ldi r17, 0x2D
        out DDRB, r17
        ldi r17, 0x53
        out SPCR, r17
        ldi r17, 0xA5
        until 300
        out SPDR, r17
1:      rjmp 1b
; a byte of the TWI, between pull-ups
case_5: ldi r17, 0x30
        out PORTC, r17
        ldi r18, 0xA4
        ldi r19, 0x84
        until 100
        sts TWCR, r18
        put TWDR, 0x50
        pause 24
        sts TWCR, r19
1:      rjmp 1b
; a conversion
case_6: until 20
        put ADCSRA, 0xC8
1:      rjmp 1b
; CALL in the cycle before R: its word is pushed, and the instruction at 0 begins all the same in the cycle after R
case_7: ldi r17, 0xFF
        out SPL, r17
        until 1
        call away
; CALL in R
case_8: ldi r17, 0xFF
        out SPL, r17
        until 0
        call away
; RET in the cycle before R
case_9: until 1
        ret
; sleep in idle, with an interrupt of timer 0 that is enabled and comes in R
case_10:
        ldi r17, 0x01
        out SMCR, r17
        sts TIMSK0, r17
        out TCCR0B, r1
        out TIFR0, r20
        ldi r17, 0x01
        ldi r18, 0xFD
        sei
        until 4
        out TCNT0, r18
        out TCCR0B, r17
        sleep
1:      rjmp 1b
; power-down
case_11:
        ldi r17, 0x05
        out SMCR, r17
        put TCCR1B, 0x01
        until 1000
        sleep
1:      rjmp 1b
; a write of the EEPROM whose last cycle is R
case_12:
        ldi r17, 0x66
        out EEDR, r17
        ldi r17, 0x24
        ldi r18, 0x22
        until 28801
        out EECR, r17
        out EECR, r18
1:      rjmp 1b
; one that would end in the cycle after R is given up
case_13:
        ldi r17, 0x44
        out EEDR, r17
        ldi r17, 0x24
        ldi r18, 0x22
        until 28800
        out EECR, r17
        out EECR, r18
1:      rjmp 1b
; a window of the EEPROM, of the watchdog
case_14:
        ldi r17, 0x04
        ldi r18, 0x18
        until 3
        out EECR, r17
        sts WDTCSR, r18
1:      rjmp 1b
away:   sbi PORTB, 1
1:      rjmp 1b
