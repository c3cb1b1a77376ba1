; The EEPROM: windows of four cycles, when a write is on the way and what it takes, EERE, EEPM, EEAR of ten bits, and the
; vector EE_READY. Port D shows each value that was read, and pin 8 changes with it.
; avr-gcc -mmcu=atmega328p -nostdlib -o a.elf eeprom.S && avr-objcopy -O ihex a.elf eeprom.hex
#define __SFR_OFFSET 0
#include <avr/io.h>
        .macro show register
        out PORTD, \register
        sbi PINB, 0
        .endm
        .macro nops count
        .rept \count
        nop
        .endr
        .endm
        .macro pause cycles     ; from 5 to 262,144
        ldi r24, lo8((\cycles - 1) / 4)
        ldi r25, hi8((\cycles - 1) / 4)
9:      sbiw r24, 1
        brne 9b
        nops ((\cycles - 1) % 4)
        .endm
        .macro wait             ; for the end of a write
9:      sbic EECR, EEPE
        rjmp 9b
        .endm
        .macro cell address, byte
        ldi r17, \address
        out EEARL, r17
        ldi r17, \byte
        out EEDR, r17
        .endm
        .macro fetch address
        ldi r17, \address
        out EEARL, r17
        out EECR, r22
        in r18, EEDR
        show r18
        .endm

        rjmp main
        .org 0x58               ; EE_READY
        in r18, EECR
        show r18
        cbi EECR, EERIE
        reti
main:   ldi r16, 0xFF
        out DDRD, r16
        sbi DDRB, 0
        ldi r20, 0x24           ; EEPM 2, which writes alone; EEMPE
        ldi r21, 0x22           ; and EEPE
        ldi r22, 0x01           ; EERE

; EEMPE reads 1 in the four cycles after its write
        .irp n, 0, 1, 2, 3, 4, 5
        out EECR, r20
        nops \n
        in r18, EECR
        show r18
        pause 8
        .endr

; EEPE 1 to 6 cycles after EEMPE: the first four begin a write
        .irp n, 0, 1, 2, 3, 4, 5
        cell \n, 0xA8 + \n
        out EECR, r20
        nops \n
        out EECR, r21
        in r18, EECR
        show r18
        wait
        .endr
        .irp n, 0, 1, 2, 3, 4, 5
        fetch \n
        .endr

; by SBI, 2, 3, 4 and 5 cycles after; EECR keeps EEPM 1 and EERIE, and gets 0 for the bits that act
        ldi r19, 0x10
        .irp n, 0, 1, 2, 3
        out EECR, r19
        cell 8 + \n, 0x77
        sbi EECR, EEMPE
        nops \n
        sbi EECR, EEPE
        in r18, EECR
        show r18
        wait
        fetch 8 + \n
        .endr
        sbi EECR, EEMPE         ; an SBI between them leaves the window open
        sbi EECR, EERIE
        in r18, EECR
        show r18
        cbi EECR, EERIE
        in r18, EECR
        show r18
        pause 8

; EEMPE with EEPE opens no window, and begins a write in one that is open
        ldi r19, 0x26
        cell 12, 0x5A
        out EECR, r19
        in r18, EECR
        show r18
        out EECR, r21
        in r18, EECR
        show r18
        out EECR, r20
        out EECR, r19
        in r18, EECR
        show r18
        wait
        fetch 12

; during a write: EEAR, EEDR and EERIE can be written, EEPM, EERE and EEPE cannot; a window opens, and outlasts the write
        cell 0, 0x0F
        out EECR, r20
        out EECR, r21           ; cell 0 becomes A8 and 0F
        cell 1, 0xF0            ; in the cycles 1 to 4 after it
        ldi r17, 0x19           ; 5: EEPM 1, EERIE, EERE
        out EECR, r17           ; 6
        in r18, EECR            ; 7
        in r19, EEDR            ; 8
        show r18                ; 9 to 11
        show r19                ; 12 to 14
        ldi r17, 0x12           ; 15
        ldi r23, 0x14           ; 16
        pause 28779             ; 17
        out EECR, r23           ; 28,796: EEMPE
        in r18, EECR            ; 28,797
        nop                     ; 28,798
        out EECR, r17           ; 28,799: EEPE, while the write is on the way
        in r19, EECR            ; 28,800: its last cycle
        in r23, EECR            ; 28,801
        show r18
        show r19
        show r23
        fetch 0
        fetch 1

; how long each mode takes, and what it leaves: both, erasing, writing, and 3, which is both
        .irp mode, 0, 1, 2, 3
        cell 1, 0x3C + 0x11 * \mode
        ldi r19, 0x10 * \mode + 4
        ldi r23, 0x10 * \mode + 2
        out EECR, r19
        out EECR, r23
        .if \mode == 1 || \mode == 2
        pause 28799
        .else
        pause 54399
        .endif
        in r18, EECR            ; the last cycle
        in r19, EECR
        show r18
        show r19
        fetch 1
        .endr

; EEPE takes EEDR as it was, and EERE of the same write then loads it
        cell 2, 0x83
        out EECR, r20
        ldi r17, 0x23
        out EECR, r17
        in r18, EEDR
        show r18
        wait
        fetch 2

; EEAR has ten bits
        ldi r17, 0xFF
        out EEARH, r17
        out EEARL, r17
        in r18, EEARH
        show r18
        in r18, EEARL
        show r18
        cell 0xFF, 0x42         ; cell 3FF
        out EECR, r20
        out EECR, r21
        wait
        ldi r17, 0x07           ; 7FF is 3FF
        out EEARH, r17
        fetch 0xFF
        ldi r17, 0x04           ; 401 is 1
        out EEARH, r17
        fetch 0x01
        ldi r17, 0x02
        out EEARH, r17
        fetch 0xFF              ; 2FF is as it is sold
        out EEARH, r1

; EE_READY: while nothing is on the way, and in the cycle after a write's last one
        sei
        sbi EECR, EERIE
        nop
        cell 4, 0x00
        cli
        out EECR, r20
        out EECR, r21
        sbi EECR, EERIE
        sei
        pause 28820
        in r18, EECR
        show r18
        ldi r17, 0x01           ; idle
        out SMCR, r17
        cell 5, 0x00
        cli
        out EECR, r20
        out EECR, r21
        sbi EECR, EERIE
        sei
        sleep                   ; ended by it
        show r20
        fetch 4
        fetch 5
        .word 0xFFFF            ; halts
