#include "wokwi-api.h"
static uint8_t bytes[32768];
static spi_dev_t spi;
static void on_done(void *user_data, uint8_t *buffer, uint32_t count) { (void)user_data; (void)count; spi_start(spi, buffer, sizeof bytes); }
void chip_init(void) {
    const spi_config_t config = {.sck = pin_init("A", INPUT), .mosi = pin_init("B", INPUT), .miso = pin_init("C", INPUT), .done = on_done};
    spi = spi_init(&config);
    spi_start(spi, bytes, sizeof bytes);
}
