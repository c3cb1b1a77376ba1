// Sixteen registers behind SPI, mode 0. While CS is low, the first byte is a register's number, with bit 7 set to write; each
// further byte is the next register's new value, or what is sent while the next register's value comes back.
#include "wokwi-api.h"

static uint8_t registers[16];
static uint8_t byte[1];
static uint32_t place;
static bool begun;
static bool writes;
static pin_t cs;
static spi_dev_t spi;

static void next(uint8_t value) {
    byte[0] = value;
    spi_start(spi, byte, 1);
}

static void on_select(void *user_data, pin_t pin, uint32_t value) {
    (void)user_data;
    (void)pin;
    if (value) {
        spi_stop(spi);
    } else {
        begun = false;
        next(0);
    }
}

static void on_done(void *user_data, uint8_t *buffer, uint32_t count) {
    (void)user_data;
    if (count == 0 || pin_read(cs)) {
        return;
    }
    if (begun) {
        if (writes) {
            registers[place] = buffer[0];
        }
        place = (place + 1) & 15;
    } else {
        begun = true;
        writes = buffer[0] >> 7;
        place = buffer[0] & 15;
    }
    next(writes ? 0 : registers[place]);
}

void chip_init(void) {
    cs = pin_init("CS", INPUT_PULLUP);
    const spi_config_t config = {
        .sck = pin_init("SCK", INPUT),
        .mosi = pin_init("MOSI", INPUT),
        .miso = pin_init("MISO", INPUT),
        .mode = 0,
        .done = on_done,
    };
    spi = spi_init(&config);
    const pin_watch_config_t watch = {.edge = BOTH, .pin_change = on_select};
    pin_watch(cs, &watch);
}
