// Prints each change of its pin IN, and the time.
#include "wokwi-api.h"
#include <stdio.h>

static void on_change(void *user_data, pin_t pin, uint32_t value) {
    printf("IN is %s after %u us\n", value ? "high" : "low", (unsigned)(get_sim_nanos() / 1000));
}

void chip_init(void) {
    pin_t in = pin_init("IN", INPUT);
    const pin_watch_config_t watch = {.edge = BOTH, .pin_change = on_change};
    pin_watch(in, &watch);
    printf("ready\n");
}
