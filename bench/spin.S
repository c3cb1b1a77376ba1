; Counts down from 26,666,600 in loops of 6 cycles, which takes 160,000,000 cycles, and changes no pin.
; Then it sleeps with interrupts off, at which simavr ends.
        .equ count, 26666600
        ldi  r16, count & 255
        ldi  r17, (count >> 8) & 255
        ldi  r18, (count >> 16) & 255
        ldi  r19, (count >> 24) & 255
loop:   subi r16, 1
        sbci r17, 0
        sbci r18, 0
        sbci r19, 0
        brne loop
        cli
        ldi  r16, 1
        out  0x33, r16
        sleep
end:    rjmp end
