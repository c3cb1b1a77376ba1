// Sends back at TX each byte that comes at RX, at 115,200 baud. Up to 256 bytes wait while others are sent.
#include "wokwi-api.h"

static uint8_t queue[256];
static uint8_t first;
static uint8_t last;
static uart_dev_t uart;

static void send(void) {
    if (first != last && uart_write(uart, &queue[first], 1)) {
        first++;
    }
}

static void on_byte(void *user_data, uint8_t byte) {
    (void)user_data;
    queue[last++] = byte;
    send();
}

static void on_sent(void *user_data) {
    (void)user_data;
    send();
}

void chip_init(void) {
    const uart_config_t config = {
        .rx = pin_init("RX", INPUT_PULLUP),
        .tx = pin_init("TX", INPUT_PULLUP),
        .baud_rate = 115200,
        .rx_data = on_byte,
        .write_done = on_sent,
    };
    uart = uart_init(&config);
}
