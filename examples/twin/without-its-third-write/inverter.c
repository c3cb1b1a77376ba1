// OUT is the inverse of IN, but the third change of IN is not answered.
#include "wokwi-api.h"

static pin_t out;
static uint32_t changes;

static void on_change(void *user_data, pin_t pin, uint32_t value) {
    (void)user_data;
    (void)pin;
    changes++;
    if (changes != 3) {
        pin_write(out, !value);
    }
}

void chip_init(void) {
    pin_t in = pin_init("IN", INPUT);
    out = pin_init("OUT", OUTPUT_HIGH);
    const pin_watch_config_t watch = {.edge = BOTH, .pin_change = on_change};
    pin_watch(in, &watch);
}
