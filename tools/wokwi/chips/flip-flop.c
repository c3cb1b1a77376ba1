// A flip-flop: a rise of CLK takes D to Q. S high sets it, R high resets it, and R wins.
#include "wokwi-api.h"

static pin_t d;
static pin_t s;
static pin_t r;
static pin_t q;
static pin_t not_q;
static bool state;

static void show(void) {
    if (pin_read(r)) {
        state = false;
    } else if (pin_read(s)) {
        state = true;
    }
    pin_write(q, state);
    pin_write(not_q, !state);
}

static void on_clock(void *user_data, pin_t pin, uint32_t value) {
    (void)user_data;
    (void)pin;
    (void)value;
    state = pin_read(d);
    show();
}

static void on_level(void *user_data, pin_t pin, uint32_t value) {
    (void)user_data;
    (void)pin;
    (void)value;
    show();
}

void chip_init(void) {
    d = pin_init("D", INPUT);
    s = pin_init("S", INPUT);
    r = pin_init("R", INPUT);
    q = pin_init("Q", OUTPUT_LOW);
    not_q = pin_init("NOTQ", OUTPUT_HIGH);
    const pin_watch_config_t clock = {.edge = RISING, .pin_change = on_clock};
    pin_watch(pin_init("CLK", INPUT), &clock);
    const pin_watch_config_t level = {.edge = BOTH, .pin_change = on_level};
    pin_watch(s, &level);
    pin_watch(r, &level);
}
