; The watchdog: windows of four cycles, when it times out, its interrupt, its reset, and MCUSR. R2 counts the resets. Port D
; shows each value that was read, and pin 8 changes with it.
; avr-gcc -mmcu=atmega328p -nostdlib -o a.elf watchdog.S && avr-objcopy -O ihex a.elf watchdog.hex
#define __SFR_OFFSET 0
#include <avr/io.h>
        .macro show register
        out PORTD, \register
        sbi PINB, 0
        .endm
        .macro read             ; WDTCSR
        lds r18, WDTCSR
        show r18
        .endm
        .macro nops count
        .rept \count
        nop
        .endr
        .endm
        .macro pause cycles     ; from 5 to 262,144
        ldi r24, lo8((\cycles - 1) / 4)
        ldi r25, hi8((\cycles - 1) / 4)
9:      sbiw r24, 1
        brne 9b
        nops ((\cycles - 1) % 4)
        .endm
        .macro put value
        ldi r17, \value
        sts WDTCSR, r17
        .endm

        rjmp main
        .org 0x18               ; WDT
        lds r18, WDTCSR
        show r18
        reti
main:   ldi r16, 0xFF
        out DDRD, r16
        sbi DDRB, 0
        ldi r20, 0x18           ; WDCE, WDE
        in r18, MCUSR
        show r18
        read
        inc r2
        ldi r16, 1
        cp r2, r16
        breq first
        inc r16
        cp r2, r16
        brne 1f
        rjmp second
1:      inc r16
        cp r2, r16
        brne 1f
        rjmp third
1:      rjmp fourth

; WDCE reads 1 in the four cycles after its write
first:  .irp n, 0, 1, 2, 3, 4
        sts WDTCSR, r20
        nops \n
        read
        .endr
        sts WDTCSR, r20
        sts WDTCSR, r1
        read

; WDE 0 and WDP 2 to 6 cycles after WDCE and WDE: the first three are in the window
        .irp n, 0, 1, 2, 3, 4
        ldi r17, \n + 1
        sts WDTCSR, r20
        nops \n
        sts WDTCSR, r17
        read
        .endr
        put 0x27                ; outside of a window neither
        read
        sts WDTCSR, r20
        put 0x21                ; WDP 9, WDE 0; after three cycles
        read

; outside of a window WDE can be set, and not cleared
        put 0x08
        read
        put 0x00
        read
; WDCE without WDE in a window changes neither and leaves it open
        ldi r17, 0x17
        ldi r19, 0x02
        sts WDTCSR, r20
        sts WDTCSR, r17
        sts WDTCSR, r19
        read
        sts WDTCSR, r20
        sts WDTCSR, r17
        read
; both in a window open another one
        ldi r19, 0x03
        sts WDTCSR, r20
        sts WDTCSR, r20
        nop
        nop
        sts WDTCSR, r19
        read
; the second write closes the window
        ldi r17, 0x0C
        sts WDTCSR, r20
        sts WDTCSR, r17
        sts WDTCSR, r19
        read

; the interrupt alone: it began to run at the first of these writes, times out 256,000 cycles later, and WDIF reads 1 from the
; cycle after
        sts WDTCSR, r20
        sts WDTCSR, r1
        ldi r17, 0x40
        sts WDTCSR, r20
        sts WDTCSR, r17
        pause 255996
        lds r18, WDTCSR         ; 256,000 cycles after
        lds r19, WDTCSR
        show r18
        show r19
        put 0x40                ; leaves WDIF
        read
        put 0xC0                ; clears it
        read
        put 0x80                ; nothing enables it now
        read
        pause 260000
        read

; WDR, and WDIE that begins the count
        put 0x40
        pause 200000
        wdr
        pause 255999
        lds r18, WDTCSR         ; 256,000 cycles after WDR
        lds r19, WDTCSR
        show r18
        show r19
        put 0x80

; a shorter time is chosen when it has passed: it times out in the cycle of the write
        ldi r17, 0x58
        ldi r19, 0x41           ; 512,000 cycles
        sts WDTCSR, r17
        sts WDTCSR, r19
        pause 250000
        pause 50000
        read
        ldi r19, 0x40
        sts WDTCSR, r17
        sts WDTCSR, r19
        read
        put 0xC0
        pause 255990
        lds r18, WDTCSR         ; 256,000 cycles after the write
        lds r19, WDTCSR
        show r18
        show r19
        put 0x80

; the interrupt enters its vector, which clears WDIF and, where WDE is 0, leaves WDIE
        sei
        put 0x40
        pause 256020
        read
        cli
        put 0x80

; both: the vector clears WDIE, and the next time-out is a reset
        sts WDTCSR, r20
        put 0x48
        sei
        pause 256020
        read
        ldi r16, 0x80
        out GPIOR0, r16
1:      rjmp 1b

; after the reset: WDRF makes WDE read 1, and it runs on; writing 1 to MCUSR does nothing
second: wdr
        in r18, GPIOR0
        show r18
        ldi r16, 0xFF
        out MCUSR, r16
        in r18, MCUSR
        show r18
        sts WDTCSR, r20
        sts WDTCSR, r1
        read
        ldi r16, 0x08           ; clears PORF
        out MCUSR, r16
        in r18, MCUSR
        show r18
        put 0x40                ; with WDIE it does not reset
        pause 256020
        read
        put 0x80
1:      rjmp 1b

; WDRF cleared: WDE is what it was set to, 0 after the reset, and it is off
third:  out MCUSR, r1
        in r18, MCUSR
        show r18
        read
        pause 260000
        read
; a core that halted is reset too
        put 0x08
        .word 0xFFFF

fourth: sts WDTCSR, r20
        out MCUSR, r1
        sts WDTCSR, r1
        read
        .word 0xFFFF
