// Uses 10,000 bytes of stack, and ends by a trap where they overwrote its data.
#include "wokwi-api.h"

static uint32_t numbers[1000];

static uint32_t sum(void) {
    volatile uint32_t local[2500];
    uint32_t total = 0;
    for (uint32_t i = 0; i < 2500; i++) {
        local[i] = i;
    }
    for (uint32_t i = 0; i < 2500; i++) {
        total += local[i];
    }
    return total;
}

void chip_init(void) {
    for (uint32_t i = 0; i < 1000; i++) {
        numbers[i] = i;
    }
    pin_init("OUT", sum() & 1);
    for (uint32_t i = 0; i < 1000; i++) {
        if (numbers[i] != i) {
            __builtin_trap();
        }
    }
}
