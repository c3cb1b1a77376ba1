// OUT is the inverse of IN, looked up in memory.
#include "wokwi-api.h"

static pin_t out;
static const uint32_t answers[2] = {HIGH, LOW};

static void on_change(void *user_data, pin_t pin, uint32_t value) {
    (void)pin;
    const uint32_t *table = user_data;
    pin_write(out, table[value]);
}

void chip_init(void) {
    pin_t in = pin_init("IN", INPUT);
    out = pin_init("OUT", OUTPUT_HIGH);
    const pin_watch_config_t watch = {.user_data = (void *)answers, .edge = BOTH, .pin_change = on_change};
    pin_watch(in, &watch);
}
