; A reset of the watchdog, by hand: the time is out in the steps of the cycles 256,001 and 512,001, and the pins are let go in the
; next ones. Port D has outputs where MCUSR has flags: PORF at first, and then WDRF too.
; avr-gcc -mmcu=atmega328p -nostdlib -o a.elf watchdog-reset.S && avr-objcopy -O ihex a.elf watchdog-reset.hex
#define __SFR_OFFSET 0
#include <avr/io.h>
        ldi r16, 0x18           ; 0, 256,002 and 512,002
        sts WDTCSR, r16         ; 1: it begins to run, but for the reset that left it running
        ldi r16, 0x08           ; 3
        sts WDTCSR, r16         ; 4
        sbi DDRB, 5             ; 6
        sbi PORTB, 5            ; 8
        in r17, MCUSR           ; 10
        out DDRD, r17           ; 11
1:      rjmp 1b                 ; 12
