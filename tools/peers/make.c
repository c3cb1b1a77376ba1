// make SEED MICROSECONDS: a second reading of the generated project. It follows the values of the wave's variables cycle by
// cycle and prints the line of `make`. Of a port's pins only what it writes matters, since the directions are set first.
#include <stdio.h>
#include <stdlib.h>
#include <string.h>

static unsigned x;
static unsigned draw(void) {
    x = 1664525u * x + 1013904223u;
    return x >> 16;
}

int main(int count, char **words) {
    if (count != 3) return 2;
    unsigned seed = strtoul(words[1], 0, 10), cycles = 16 * strtoul(words[2], 0, 10);
    x = seed;
    unsigned p = 2 + draw() % 8, q = 2 + draw() % 8, values[64];
    for (int j = 0; j < 64; j++) values[j] = draw() % 256;

    unsigned out_b = 0, out_d = 0, is_b = 0, is_d = 0, inverted[2] = {1, 1}, seen[2] = {0, 0}, gate = 1;
    char before[64], now[64];
    unsigned long changes = 0;
    for (unsigned t = 0; t < cycles; t++) {
        // the values in cycle t; GND and pins that nothing drives never change
        char pin[14];
        int n = 0;
        for (int k = 0; k < 14; k++) {
            unsigned on = k < 8 ? is_d >> k & 1 : is_b >> (k - 8) & 1;
            unsigned value = k < 8 ? out_d >> k & 1 : out_b >> (k - 8) & 1;
            pin[k] = on ? '0' + value : 'z';
            now[n++] = pin[k];
        }
        // both ends of each resistor and the LED behind it
        for (int k = 2; k < 10; k++) now[n++] = pin[k], now[n++] = pin[k], now[n++] = pin[k];
        char in[2] = {pin[p], pin[q]};
        // IN; OUT and what the chip drives there; the gate's input
        for (int i = 0; i < 2; i++) now[n++] = in[i], now[n++] = inverted[i], now[n++] = inverted[i], now[n++] = inverted[i];
        // the gate's output and A0
        now[n++] = gate, now[n++] = gate;
        if (t > 0) for (int i = 0; i < n; i++) changes += now[i] != before[i];
        memcpy(before, now, n);

        // the steps of cycle t
        gate = inverted[0] ^ inverted[1];
        for (int i = 0; i < 2; i++) {
            unsigned high = in[i] == '1';
            if (high != seen[i]) inverted[i] = !high;
            seen[i] = high;
        }
        if (t == 1) is_b = 0x3F;
        if (t == 2) is_d = 0xFF;
        if (t >= 3) {
            // a turn takes 130 cycles: 64 times LDI and OUT, and RJMP, which takes two
            unsigned at = (t - 3) % 130;
            if (at < 128 && at % 2 == 1) *(at / 2 % 2 == 0 ? &out_b : &out_d) = values[at / 2];
        }
    }
    printf("make %u cycles %u changes %lu serial 0\n", seed, cycles, changes);
    return 0;
}
