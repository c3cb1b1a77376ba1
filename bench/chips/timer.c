#include "wokwi-api.h"
static volatile uint32_t count;
static void on_timer(void *user_data) { (void)user_data; count++; }
void chip_init(void) {
    const timer_config_t config = {.callback = on_timer};
    timer_start(timer_init(&config), 1, true);
}
