; Each interrupt of the ports, the timers, the USART and the ADC, with every other one pending. The flags of all are set; then
; each is enabled alone, the least important first; then all are set again and enabled together. A vector shows its
; number on A0 to A4 (data sheet, "Interrupt Vectors in ATmega328P").
; avr-gcc -mmcu=atmega328p -nostdlib -o a.elf vectors.S && avr-objcopy -O ihex a.elf vectors.hex
#define __SFR_OFFSET 0
#include <avr/io.h>
        .macro vector n, then
        ldi r16, \n
        rjmp \then
        .endm
        .macro alone register, bits, none
        ldi r16, \bits
        sts \register, r16
        sei
        nop
        cli
        ldi r16, \none
        sts \register, r16
        .endm

        rjmp main
        nop
        .irp n, 1, 2, 3, 4, 5, 6, 7, 8, 9, 10, 11, 12, 13, 14, 15, 16, 17
        vector \n, show
        .endr
        vector 18, take         ; RXC0 and UDRE0 are not cleared by entering
        vector 19, stop
        vector 20, show
        vector 21, show
take:   lds r19, UDR0
        rjmp show
stop:   lds r19, UCSR0B
        andi r19, ~(1 << UDRIE0)
        sts UCSR0B, r19
show:   or r16, r17
        out PORTC, r16
        out PORTC, r17
        reti

; sets each flag: a change of pins 2, 3, 7, 8 and A5, the count 0xFF or 0xFFFF of each timer, a byte that goes out, one
; that the pull-up of pin 0 makes, a conversion
flags:  sbi PIND, 2
        sbi PIND, 3
        sbi PIND, 7
        sbi PINB, 0
        com r17
        andi r17, 0x20
        out PORTC, r17
        out TCNT0, r20
        sts TCNT2, r20
        sts TCNT1H, r20
        sts TCNT1L, r20
        ldi r16, 1
        ldi r18, 0x19
        out TCCR0B, r16
        out TCCR0B, r0
        sts TCCR2B, r16
        sts TCCR2B, r0
        sts TCCR1B, r18
        sts TCCR1B, r0
        sts UDR0, r0
        cbi PORTD, 0
        ldi r18, 47
low:    dec r18
        brne low
        sbi PORTD, 0
        ldi r16, 0xC0
        sts ADCSRA, r16
wait:   lds r16, ADCSRA
        sbrs r16, ADIF
        rjmp wait
        ret

main:   ldi r16, 0x1F
        out DDRC, r16
        ldi r16, 0x05
        sts EICRA, r16
        ldi r16, 0x01
        sts PCMSK0, r16
        ldi r16, 0x20
        sts PCMSK1, r16
        ldi r16, 0x80
        sts PCMSK2, r16
        ldi r20, 0xFF
        out OCR0A, r20
        out OCR0B, r20
        sts OCR2A, r20
        sts OCR2B, r20
        sts OCR1AH, r20
        sts OCR1AL, r20
        sts OCR1BH, r20
        sts OCR1BL, r20
        sts ICR1H, r20
        sts ICR1L, r20
        sbi PORTD, 0
        ldi r16, 0x18           ; RXEN0, TXEN0
        sts UCSR0B, r16
        rcall flags
        alone ADCSRA, 0x88, 0x80
        alone UCSR0B, 0x58, 0x18
        alone UCSR0B, 0x38, 0x18
        alone UCSR0B, 0x98, 0x18
        alone TIMSK0, 1, 0
        alone TIMSK0, 4, 0
        alone TIMSK0, 2, 0
        alone TIMSK1, 1, 0
        alone TIMSK1, 4, 0
        alone TIMSK1, 2, 0
        alone TIMSK1, 0x20, 0
        alone TIMSK2, 1, 0
        alone TIMSK2, 4, 0
        alone TIMSK2, 2, 0
        alone PCICR, 4, 0
        alone PCICR, 2, 0
        alone PCICR, 1, 0
        alone 0x3D, 2, 0
        alone 0x3D, 1, 0
        rcall flags
        ldi r16, 0x88
        sts ADCSRA, r16
        ldi r16, 0xF8
        sts UCSR0B, r16
        ldi r16, 7
        sts TIMSK0, r16
        sts TIMSK2, r16
        sts PCICR, r16
        ldi r16, 0x27
        sts TIMSK1, r16
        ldi r16, 3
        out EIMSK, r16
        sei
stay:   rjmp stay
