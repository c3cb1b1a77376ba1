// OUT changes by a timer, each `micros` microseconds: an attribute of the diagram, 500,000 where it gives none.
#include "wokwi-api.h"

typedef struct {
    pin_t out;
    uint32_t level;
} chip_t;

static chip_t chip;

static void on_timer(void *user_data) {
    chip_t *self = user_data;
    self->level = !self->level;
    pin_write(self->out, self->level);
}

void chip_init(void) {
    chip.out = pin_init("OUT", OUTPUT_LOW);
    uint32_t micros = attr_read(attr_init("micros", 500000));
    const timer_config_t config = {.user_data = &chip, .callback = on_timer};
    timer_start(timer_init(&config), micros, true);
}
