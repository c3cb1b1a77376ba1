// Sends "on" and a line feed from a buffer whose storage is named by STORAGE. Meanwhile another callback uses the stack.
#include "wokwi-api.h"

static uart_dev_t uart;

static void say(void *user_data) {
    STORAGE uint8_t text[] = {'o', 'n', '\n'};
    uart_write(uart, text, sizeof text);
}

static void work(void *user_data) {
    volatile uint8_t scratch[64];
    for (uint32_t i = 0; i < sizeof scratch; i++) {
        scratch[i] = '?';
    }
}

void chip_init(void) {
    const uart_config_t config = {.rx = NO_PIN, .tx = pin_init("TX", INPUT_PULLUP), .baud_rate = 9600};
    uart = uart_init(&config);
    const timer_config_t once = {.callback = say};
    timer_start(timer_init(&once), 50050, false);
    const timer_config_t often = {.callback = work};
    timer_start(timer_init(&often), 100, true);
}
