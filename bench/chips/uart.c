#include "wokwi-api.h"
static volatile uint32_t sum;
static void on_byte(void *user_data, uint8_t byte) { (void)user_data; sum += byte; }
void chip_init(void) {
    const uart_config_t config = {.rx = pin_init("A", INPUT), .tx = NO_PIN, .baud_rate = 2000000, .rx_data = on_byte};
    uart_init(&config);
}
