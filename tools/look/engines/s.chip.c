// Prints each callback of an SPI engine with its cycle, and the bytes that came in. The attribute `mode` is 0 to 3.
#include "wokwi-api.h"
#include <stdio.h>
static spi_dev_t spi;
static uint8_t b[4];
static unsigned now(void) {
    return (unsigned)(get_sim_nanos() / 62);
}
static void on_done(void *u, uint8_t *d, uint32_t n) {
    printf("done %u at %u:", n, now());
    for (uint32_t i = 0; i < n; i++)
        printf(" %u", d[i]);
    printf("\n");
    if (n == 3)
        spi_start(spi, b, 2);
}
static void on_cs(void *u, pin_t p, uint32_t v) {
    if (v)
        spi_stop(spi);
    else
        spi_start(spi, b, 3);
}
void chip_init(void) {
    const spi_config_t c = {.sck = pin_init("SCK", INPUT),
                            .mosi = pin_init("MOSI", INPUT),
                            .miso = pin_init("MISO", INPUT),
                            .mode = attr_read(attr_init("mode", 0)),
                            .done = on_done};
    spi = spi_init(&c);
    const pin_watch_config_t w = {.edge = BOTH, .pin_change = on_cs};
    pin_watch(pin_init("CS", INPUT), &w);
}
