; The firmware of blink.hex, word by word. Port B, bit 5 is the Uno's pin 13.
        sbi  0x04, 5    ; 9A25  DDRB:  pin 13 is an output, Low at first
loop:   sbi  0x05, 5    ; 9A2D  PORTB: pin 13 is High
        cbi  0x05, 5    ; 982D  PORTB: pin 13 is Low
        rjmp loop       ; CFFD
