// A chip that copies its pin IN to its pin OUT.
#include "wokwi-api.h"

typedef struct {
    pin_t out;
} chip_t;

static chip_t chip;

static void on_change(void *user_data, pin_t pin, uint32_t value) {
    (void)pin;
    chip_t *self = user_data;
    pin_write(self->out, value);
}

void chip_init(void) {
    pin_t in = pin_init("IN", INPUT);
    chip.out = pin_init("OUT", OUTPUT_LOW);
    const pin_watch_config_t watch = {
        .user_data = &chip,
        .edge = BOTH,
        .pin_change = on_change,
    };
    pin_watch(in, &watch);
}
