// The converter of a load cell (HX711): DT is low while a value is there, and each rise of SCK gives the next of its 24 bits, the highest
// first; the rises after them, up to three, choose the next channel. The attribute `load` is in grams, 420 of the value for a
// kilogram, and a hand moves it from 0 to 5000.
#include "control.h"

enum { BITS = 24, PERIOD = 100000 }; // us

static pin_t dt;
static uint32_t load;
static timer_t timer;
static uint32_t value, at;

static void on_ready(void *user_data) {
    value = (uint32_t)(control_read(load) * 420 / 1000) & 0xFFFFFF;
    at = 0;
    pin_write(dt, LOW);
}

static void on_clock(void *user_data, pin_t pin, uint32_t level) {
    pin_write(dt, at < BITS ? value >> (BITS - 1 - at) & 1 : HIGH);
    at++;
    timer_start(timer, PERIOD, false);
}

void chip_init(void) {
    load = control_init("load", 0, 0, 1, 5001);
    control_watch();
    dt = pin_init("DT", OUTPUT_HIGH);
    const timer_config_t times = {.callback = on_ready};
    timer = timer_init(&times);
    timer_start(timer, PERIOD, false);
    const pin_watch_config_t watch = {.edge = RISING, .pin_change = on_clock};
    pin_watch(pin_init("SCK", INPUT), &watch);
}
