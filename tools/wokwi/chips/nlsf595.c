// A driver of lights with a shift register (NLSF595): a rise of SCK moves each of eight stages on by one and SI into the first; a rise of
// RCK stores them. While OE is low a stored 1 pulls its output low, and a 0 leaves it open. A low of RST clears the stages. SQH is the
// last stage, for the next one.
#include "wokwi-api.h"

enum { STAGES = 8 };

static pin_t outputs[STAGES], serial, enable, last;
static uint32_t stages, stored;

static void show(void) {
    for (uint32_t stage = 0; stage < STAGES; stage++) {
        pin_mode(outputs[stage], !pin_read(enable) && (stored >> stage & 1) ? OUTPUT_LOW : INPUT);
    }
    pin_write(last, stages >> (STAGES - 1) & 1);
}

static void on_shift(void *user_data, pin_t pin, uint32_t value) {
    (void)user_data;
    (void)pin;
    (void)value;
    stages = (stages << 1 | pin_read(serial)) & 0xFF;
    pin_write(last, stages >> (STAGES - 1) & 1);
}

static void on_store(void *user_data, pin_t pin, uint32_t value) {
    (void)user_data;
    (void)pin;
    (void)value;
    stored = stages;
    show();
}

static void on_enable(void *user_data, pin_t pin, uint32_t value) {
    (void)user_data;
    (void)pin;
    (void)value;
    show();
}

static void on_reset(void *user_data, pin_t pin, uint32_t value) {
    (void)user_data;
    (void)pin;
    (void)value;
    stages = 0;
    show();
}

void chip_init(void) {
    static const char *const names[STAGES] = {"QA", "QB", "QC", "QD", "QE", "QF", "QG", "QH"};
    for (uint32_t stage = 0; stage < STAGES; stage++) {
        outputs[stage] = pin_init(names[stage], INPUT);
    }
    last = pin_init("SQH", OUTPUT_LOW);
    serial = pin_init("SI", INPUT);
    enable = pin_init("OE", INPUT_PULLDOWN);
    const pin_watch_config_t enables = {.edge = BOTH, .pin_change = on_enable}, shifts = {.edge = RISING, .pin_change = on_shift};
    const pin_watch_config_t stores = {.edge = RISING, .pin_change = on_store}, resets = {.edge = FALLING, .pin_change = on_reset};
    pin_watch(enable, &enables);
    pin_watch(pin_init("SCK", INPUT), &shifts);
    pin_watch(pin_init("RCK", INPUT), &stores);
    pin_watch(pin_init("RST", INPUT_PULLUP), &resets);
}
