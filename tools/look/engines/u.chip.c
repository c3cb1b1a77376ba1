// Prints each callback of a UART engine with its cycle. The attribute `baud` is its rate.
#include "wokwi-api.h"
#include <stdio.h>
static uart_dev_t uart;
static uint8_t out[3];
static int n;
static unsigned now(void) {
    return (unsigned)(get_sim_nanos() / 62);
}
static void on_byte(void *u, uint8_t b) {
    printf("got %u at %u\n", b, now());
    out[0] = b;
    out[1] = b + 1;
    out[2] = b + 2;
    bool ok = uart_write(uart, out, n++ % 4);
    printf("%d\n", ok);
}
static void on_done(void *u) {
    printf("sent at %u\n", now());
}
void chip_init(void) {
    const uart_config_t c = {.rx = pin_init("RX", INPUT),
                             .tx = pin_init("TX", OUTPUT),
                             .baud_rate = attr_read(attr_init("baud", 115200)),
                             .rx_data = on_byte,
                             .write_done = on_done};
    uart = uart_init(&c);
}
