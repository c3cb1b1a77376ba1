; Each frame of the USART: 5 to 8 bits, without parity, with even and with odd parity, with one and two stop bits, by 16
; and by 8 cycles a bit. Pin 1 is wired to pin 0; what comes in shows on port B (its bits 5 to 0), its flags and bits
; 7 and 6 on port C. The bytes 0x00, 0x55, 0xAA and 0xFF go out in each.
; avr-gcc -mmcu=atmega328p -nostdlib -o a.elf usart.S && avr-objcopy -O ihex a.elf usart.hex
#define __SFR_OFFSET 0
#include <avr/io.h>
        rjmp main
bytes:  .byte 0x00, 0x55, 0xAA, 0xFF
main:   ldi r16, 0x3F
        out DDRB, r16
        out DDRC, r16
        ldi r16, (1 << RXEN0) | (1 << TXEN0)
        sts UCSR0B, r16
        clr r20                 ; U2X0
speed:  sts UCSR0A, r20
        clr r21                 ; UPM0, USBS0 and UCSZ0
format: sts UCSR0C, r21
        ldi r30, lo8(bytes)
        ldi r31, hi8(bytes)
next:   lpm r16, Z+
        sts UDR0, r16
wait:   lds r17, UCSR0A
        sbrs r17, RXC0
        rjmp wait
        lds r18, UDR0
        out PORTB, r18
        swap r18
        lsr r18
        lsr r18
        andi r18, 3
        andi r17, (1 << FE0) | (1 << DOR0) | (1 << UPE0)
        or r17, r18
        out PORTC, r17
done:   lds r17, UCSR0A
        sbrs r17, TXC0
        rjmp done
        ori r20, 1 << TXC0
        sts UCSR0A, r20
        andi r20, 1 << U2X0
        cpi r30, lo8(main)
        brne next
        subi r21, -2
        cpi r21, 0x10           ; UPM0 of 1 counts as none
        brne even
        ldi r21, 0x20
even:   cpi r21, 0x40
        brne format
        tst r20
        brne end
        ldi r20, 1 << U2X0
        rjmp speed
end:    .word 0xFFFF            ; halts
