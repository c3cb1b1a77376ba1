; Power-down, and what ends it. Pin 2 has a button to ground, INT0 and PCINT18. Timer 1 counts the cycles of the units whose clock
; stands in power-down; port C shows each value, its bits 5 to 0 and then with its halves exchanged, and pin 8 changes with it.
; avr-gcc -mmcu=atmega328p -nostdlib -o a.elf power-down.S && avr-objcopy -O ihex a.elf power-down.hex
#define __SFR_OFFSET 0
#include <avr/io.h>
        .macro show register
        out PORTC, \register
        sbi PINB, 0
        swap \register
        out PORTC, \register
        swap \register
        sbi PINB, 0
        .endm
        .macro nops count
        .rept \count
        nop
        .endr
        .endm
        .macro put address, value
        ldi r17, \value
        sts \address, r17
        .endm
        .macro entered vector   ; shows the vector and the low byte of timer 1
        lds r19, TCNT1L
        ldi r18, \vector
        show r18
        show r19
        .endm

        rjmp main
        .org 0x04               ; INT0
        rjmp int_0
        .org 0x14               ; PCINT2
        rjmp pcint_2
        .org 0x18               ; WDT
        rjmp wdt
        .org 0x40               ; TIMER0_OVF
        rjmp ovf_0
int_0:  entered 1
        out EIMSK, r1
        reti
pcint_2:
        entered 5
        reti
wdt:    entered 6
        sts WDTCSR, r1
        reti
ovf_0:  entered 16
        sts TIMSK0, r1
        reti

main:   sbi PORTD, 2            ; a pull-up
        ldi r16, 0x3F
        out DDRC, r16
        ldi r16, 0x39
        out DDRB, r16
        in r18, MCUSR
        show r18
        tst r2
        breq 1f
        rjmp again
1:      inc r2
        put TCCR1B, 0x01
        ldi r16, 0x05           ; SE, power-down
        ldi r20, 0x04
        ldi r22, 0x01

; without SE it is NOP
        out SMCR, r20
        sleep
        show r20

; an overflow of timer 0 is up and enabled: the button ends sleep, and its vector comes first; then the timer's
        put PCMSK2, 0x04
        put PCICR, 0x04
        out SMCR, r16
        ldi r17, 0xFF
        out TCNT0, r17
        out TCCR0B, r22
        nop
        nop
        out TCCR0B, r1
        sts TIMSK0, r22
        in r18, TIFR0
        show r18
        sei
        sleep                   ; up to the press at 2,000
        nops 8
        show r16

; a timer that would overflow in power-down stands; a frame of the USART, a byte of the SPI and a pulse of timer 2 are held
        put UCSR0B, 0x08
        put UDR0, 0xA5
        put SPCR + 0x20, 0x52
        put SPDR + 0x20, 0x96
        put TCCR2A, 0x42
        put OCR2A, 9
        put TCCR2B, 0x01
        sts TIMSK0, r22
        ldi r17, 0xF8
        out TCNT0, r17
        out TCCR0B, r22
        sleep                   ; up to the release at 4,000
        nops 30
        out TCCR0B, r1
        sts TIMSK0, r1
        .rept 100
        nop
        .endr
        sts TCCR2B, r1
        show r16

; INT0 by its falling edge does not end it, and its flag is kept: the watchdog ends it, and INT0 is entered first
        cli
        put PCICR, 0
        put EICRA, 0x02
        out EIFR, r22
        out EIMSK, r22
        ldi r17, 0x18
        ldi r18, 0x40
        wdr
        sts WDTCSR, r17
        sts WDTCSR, r18
        sei
        sleep                   ; the press at 6,000, the release at 8,000, up to 256,000 cycles after
        nops 8
        show r16

; by its low level it does; it goes on asking, until it is masked
        cli
        put EICRA, 0
        out EIMSK, r22
        sei
        sleep                   ; up to the press at 270,000
        nops 8
        show r16

; asked for already where it falls asleep: awake in the cycle after
        cli
        out EIMSK, r22
        sei
        sleep
        nops 8
        show r16

; a pin change that is flagged and not enabled does not end it
        in r18, PCIFR
        show r18
        out PCIFR, r20
        sei
        put PCICR, 0
        put PCMSK2, 0x04
        put WDTCSR, 0x40
        sleep                   ; the release at 280,000
        in r18, PCIFR
        show r18
        out PCIFR, r20

; INT0's level, the pin change and the watchdog in one cycle: the least vector first
        cli
        put PCICR, 0x04
        out EIMSK, r22
        ldi r18, 0x40
        sbi PINB, 0
        wdr
        sts WDTCSR, r18
        sei
        sleep                   ; the press that comes with the time-out
        nops 8
        show r16

; with I clear nothing ends it but the reset
        cli
        out EIMSK, r22
        put WDTCSR, 0x08
        wdr
        sleep
        rjmp main
; SLEEP in another mode halts, and so does power-down while a conversion is on the way: the reset ends that
again:  inc r2
        wdr
        put ADCSRA, 0x80
        ldi r16, 0x05
        out SMCR, r16
        ldi r17, 2
        cp r2, r17
        breq halts_1
        ldi r17, 3
        cp r2, r17
        breq halts_2
        put ADCSRA, 0x00
        out MCUSR, r1
        put WDTCSR, 0x18
        put WDTCSR, 0x40
        sei
        sleep
        show r16
        put WDTCSR, 0x00
        sleep                   ; nothing is enabled: to the end
halts_1:
        put ADCSRA, 0xC0
        sleep
        show r16
halts_2:
        ldi r16, 0x03           ; ADC noise reduction
        out SMCR, r16
        sleep
        show r16
