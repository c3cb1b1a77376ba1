// Needs more stack than there is.
#include "wokwi-api.h"

static uint32_t sum(uint32_t depth) {
    volatile uint8_t block[4096];
    block[depth] = depth;
    return depth ? sum(depth - 1) + block[depth] : 0;
}

void chip_init(void) {
    pin_init("OUT", sum(100));
}
