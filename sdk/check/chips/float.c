// Prints a float 2 microseconds after the start.
#include "wokwi-api.h"
#include <stdio.h>

static void on_timer(void *user_data) {
    printf("%f\n", 1.5);
}

void chip_init(void) {
    const timer_config_t config = {.callback = on_timer};
    timer_start(timer_init(&config), 2, false);
    printf("%d\n", 1);
}
