// While it is selected it exchanges a buffer, so that it gives back what came in the selection before. The buffer's storage is
// named by STORAGE. Meanwhile another callback uses the stack.
#include "wokwi-api.h"

static spi_dev_t spi;

static void on_select(void *user_data, pin_t pin, uint32_t value) {
    STORAGE uint8_t bytes[] = {1, 2, 3, 4, 5};
    if (value) {
        spi_stop(spi);
    } else {
        spi_start(spi, bytes, sizeof bytes);
    }
}

static void work(void *user_data) {
    volatile uint8_t scratch[64];
    for (uint32_t i = 0; i < sizeof scratch; i++) {
        scratch[i] = '?';
    }
}

static void on_done(void *user_data, uint8_t *buffer, uint32_t count) {
}

void chip_init(void) {
    pin_t cs = pin_init("CS", INPUT_PULLUP);
    const spi_config_t config = {
        .sck = pin_init("SCK", INPUT),
        .mosi = pin_init("MOSI", INPUT),
        .miso = pin_init("MISO", INPUT),
        .mode = 0,
        .done = on_done,
    };
    spi = spi_init(&config);
    const pin_watch_config_t watch = {.edge = BOTH, .pin_change = on_select};
    pin_watch(cs, &watch);
    const timer_config_t often = {.callback = work};
    timer_start(timer_init(&often), 1, true);
}
