// OUT is low at first, and the inverse of IN from the first change of IN on.
#include "wokwi-api.h"

static pin_t out;

static void on_change(void *user_data, pin_t pin, uint32_t value) {
    (void)user_data;
    (void)pin;
    pin_write(out, !value);
}

void chip_init(void) {
    pin_t in = pin_init("IN", INPUT);
    out = pin_init("OUT", OUTPUT_LOW);
    const pin_watch_config_t watch = {.edge = BOTH, .pin_change = on_change};
    pin_watch(in, &watch);
}
