; A chain of 74HC595s moved bit by bit: pin 11 is DS, 13 SHCP, 10 STCP, 9 MR and 8 OE.
; avr-gcc -mmcu=atmega328p -nostdlib -o a.elf shift.S && avr-objcopy -O ihex a.elf shift.hex
#define __SFR_OFFSET 0
#include <avr/io.h>
#define OE 0x01
#define MR 0x02
#define STCP 0x04
#define DS 0x08
#define SHCP 0x20
        .macro pins value
        ldi r16, \value
        out PORTB, r16
        .endm
        .macro bit value
        pins MR + \value
        pins MR + \value + SHCP
        .endm
        .macro store
        pins MR
        pins MR + STCP
        pins MR
        .endm
        .macro byte b           ; the highest bit first
        bit ((\b >> 7) & 1) * DS
        bit ((\b >> 6) & 1) * DS
        bit ((\b >> 5) & 1) * DS
        bit ((\b >> 4) & 1) * DS
        bit ((\b >> 3) & 1) * DS
        bit ((\b >> 2) & 1) * DS
        bit ((\b >> 1) & 1) * DS
        bit ((\b >> 0) & 1) * DS
        .endm
        pins MR
        ldi r16, OE + MR + STCP + DS + SHCP
        out DDRB, r16
        byte 0xA5
        byte 0x3C
        store
        pins MR + OE            ; the outputs off, a store while they are off, and on again
        bit DS
        pins MR + OE + SHCP
        pins MR + OE
        pins MR + OE + STCP
        pins MR + OE
        pins MR
        bit DS
        bit 0
        bit DS
        pins MR + DS            ; both edges in one cycle: what was there is stored
        pins MR + DS + SHCP + STCP
        pins MR
        pins DS                 ; MR clears, and wins over shifts while it is low
        pins DS + SHCP
        pins DS
        pins DS + SHCP
        pins MR + DS + SHCP     ; which is no edge
        pins MR + DS
        bit DS
        bit DS
        pins MR
        pins STCP               ; a store in the cycle in which MR falls, and one while it is low
        pins 0
        pins STCP
        pins 0
        pins MR
        bit DS
        store
        pins 0                  ; MR while the storage register goes on showing
        pins MR
        bit DS
        bit DS
        bit DS
        bit DS
        bit DS
        bit DS
        bit DS
        bit DS
        store
        ldi r16, 0              ; no pin driven
        out DDRB, r16
        ldi r16, SHCP + STCP + DS
        out DDRB, r16           ; SHCP, STCP and DS low, MR and OE open
        pins DS
        pins DS + SHCP
        pins STCP
end:    rjmp end
