// A clock on CLK, low at the beginning. The attribute `half` is half its period in nanoseconds, rounded up to cycles of 62.5 ns.
#include "wokwi-api.h"

static pin_t clk;
static bool level;

static void on_timer(void *user_data) {
    (void)user_data;
    level = !level;
    pin_write(clk, level);
}

void chip_init(void) {
    clk = pin_init("CLK", OUTPUT_LOW);
    const timer_config_t config = {.callback = on_timer};
    timer_start_ns(timer_init(&config), attr_read(attr_init("half", 50000)), true);
}
