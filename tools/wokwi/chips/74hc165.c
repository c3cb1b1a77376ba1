// A shift register with eight inputs (74HC165): while PL is low it takes D0 to D7; a rise of CP while CE is low moves each stage on
// by one, and DS into the first. Q7 is the last stage, Q7_N its opposite.
#include "wokwi-api.h"

enum { STAGES = 8 };

static pin_t inputs[STAGES];
static pin_t load;
static pin_t enable;
static pin_t serial;
static pin_t q7;
static pin_t not_q7;
static uint32_t stages; // D7's in bit 7

static void show(void) {
    pin_write(q7, stages >> 7 & 1);
    pin_write(not_q7, !(stages >> 7 & 1));
}

static void take(void) {
    stages = 0;
    for (uint32_t stage = 0; stage < STAGES; stage++) {
        stages |= pin_read(inputs[stage]) << stage;
    }
    show();
}

static void on_clock(void *user_data, pin_t pin, uint32_t value) {
    (void)user_data;
    (void)pin;
    (void)value;
    if (pin_read(load) && !pin_read(enable)) {
        stages = (stages << 1 | pin_read(serial)) & 0xFF;
        show();
    }
}

static void on_input(void *user_data, pin_t pin, uint32_t value) {
    (void)user_data;
    (void)pin;
    (void)value;
    if (!pin_read(load)) {
        take();
    }
}

void chip_init(void) {
    static const char *const names[STAGES] = {"D0", "D1", "D2", "D3", "D4", "D5", "D6", "D7"};
    const pin_watch_config_t input = {.edge = BOTH, .pin_change = on_input};
    for (uint32_t stage = 0; stage < STAGES; stage++) {
        inputs[stage] = pin_init(names[stage], INPUT);
        pin_watch(inputs[stage], &input);
    }
    serial = pin_init("DS", INPUT);
    enable = pin_init("CE", INPUT_PULLDOWN);
    q7 = pin_init("Q7", OUTPUT_LOW);
    not_q7 = pin_init("Q7_N", OUTPUT_HIGH);
    load = pin_init("PL", INPUT);
    const pin_watch_config_t falls = {.edge = FALLING, .pin_change = on_input};
    pin_watch(load, &falls);
    const pin_watch_config_t clock = {.edge = RISING, .pin_change = on_clock};
    pin_watch(pin_init("CP", INPUT), &clock);
}
