// OUT is the inverse of IN, and low once 875 ns are over.
#include "wokwi-api.h"

static pin_t out;

static void on_change(void *user_data, pin_t pin, uint32_t value) {
    (void)user_data;
    (void)pin;
    pin_write(out, !value);
}

static void on_time(void *user_data) {
    (void)user_data;
    pin_write(out, LOW);
}

void chip_init(void) {
    pin_t in = pin_init("IN", INPUT);
    out = pin_init("OUT", OUTPUT_HIGH);
    const pin_watch_config_t watch = {.edge = BOTH, .pin_change = on_change};
    pin_watch(in, &watch);
    const timer_config_t config = {.callback = on_time};
    timer_start_ns(timer_init(&config), 875, false);
}
