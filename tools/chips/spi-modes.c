// An SPI slave for each mode from 0 to 3, all on SCK, MOSI and MISO, each with a select of its own. While selected a slave
// exchanges three bytes and then releases MISO, the one of mode 3 again and again; it sends what came in the time before. What
// ended early is counted in the first byte. DONE changes with each `done`.
#include "wokwi-api.h"

struct slave {
    spi_dev_t spi;
    uint8_t bytes[3];
};

static struct slave slaves[4] = {{0, {0x01, 0x81, 0x7E}}, {0, {0x12, 0xC3, 0x3C}}, {0, {0x24, 0xE7, 0x18}}, {0, {0x48, 0xFF, 0x00}}};
static pin_t selects[4];
static pin_t done;
static uint32_t done_level;

static void on_select(void *user_data, pin_t pin, uint32_t value) {
    (void)pin;
    struct slave *slave = user_data;
    if (value) {
        spi_stop(slave->spi);
    } else {
        spi_start(slave->spi, slave->bytes, 3);
    }
}

static void on_done(void *user_data, uint8_t *buffer, uint32_t count) {
    struct slave *slave = user_data;
    done_level = !done_level;
    pin_write(done, done_level);
    if (count < 3) {
        buffer[0] = count;
    } else if (slave == &slaves[3] && !pin_read(selects[3])) {
        spi_start(slave->spi, buffer, 3);
    }
}

void chip_init(void) {
    const char *names[4] = {"S0", "S1", "S2", "S3"};
    spi_config_t config = {
        .sck = pin_init("SCK", INPUT),
        .mosi = pin_init("MOSI", INPUT),
        .miso = pin_init("MISO", INPUT),
        .done = on_done,
    };
    done = pin_init("DONE", OUTPUT_LOW);
    for (uint32_t mode = 0; mode < 4; mode++) {
        selects[mode] = pin_init(names[mode], INPUT_PULLUP);
        config.user_data = &slaves[mode];
        // numbers count mod 4
        config.mode = mode + 4 * mode;
        slaves[mode].spi = spi_init(&config);
        const pin_watch_config_t watch = {&slaves[mode], BOTH, on_select};
        pin_watch(selects[mode], &watch);
    }
}
