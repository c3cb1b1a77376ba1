// Q0 to Q3 count the rising edges of CLK in binary digits; while RST is high they stay 0.
#include "wokwi-api.h"

static const char *const names[4] = {"Q0", "Q1", "Q2", "Q3"};
static pin_t rst;
static pin_t q[4];
static uint32_t count;

static void show(uint32_t value) {
    count = value & 15;
    for (int i = 0; i < 4; i++) {
        pin_write(q[i], count >> i & 1);
    }
}

static void on_clock(void *user_data, pin_t pin, uint32_t value) {
    (void)user_data;
    (void)pin;
    (void)value;
    if (!pin_read(rst)) {
        show(count + 1);
    }
}

static void on_reset(void *user_data, pin_t pin, uint32_t value) {
    (void)user_data;
    (void)pin;
    (void)value;
    show(0);
}

void chip_init(void) {
    pin_t clk = pin_init("CLK", INPUT);
    rst = pin_init("RST", INPUT_PULLDOWN);
    for (int i = 0; i < 4; i++) {
        q[i] = pin_init(names[i], OUTPUT_LOW);
    }
    const pin_watch_config_t clock = {.edge = RISING, .pin_change = on_clock};
    const pin_watch_config_t reset = {.edge = RISING, .pin_change = on_reset};
    pin_watch(clk, &clock);
    pin_watch(rst, &reset);
}
