#include "wokwi-api.h"
static volatile uint32_t count;
static void on_change(void *user_data, pin_t pin, uint32_t value) { (void)user_data; (void)pin; (void)value; count++; }
void chip_init(void) {
    const pin_watch_config_t watch = {.edge = BOTH, .pin_change = on_change};
    pin_watch(pin_init("A", INPUT), &watch);
}
