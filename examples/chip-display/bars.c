// Draws a row for each pulse on its pin IN: a green pixel for each `micros` microseconds of the pulse, an attribute of the diagram.
#include "wokwi-api.h"

static const uint8_t green[] = {0, 255, 0, 255};
static buffer_t display;
static uint32_t width, height, row, micros;
static uint64_t rise;

static void draw(uint32_t pixels) {
    for (uint32_t x = 0; x < pixels && x < width; x++) {
        buffer_write(display, 4 * (row * width + x), green, sizeof green);
    }
}

static void on_change(void *user_data, pin_t pin, uint32_t value) {
    uint64_t now = get_sim_nanos();
    if (value) {
        rise = now;
    } else if (row < height) {
        draw((uint32_t)((now - rise) / 1000 / micros));
        row++;
    }
}

void chip_init(void) {
    pin_t in = pin_init("IN", INPUT);
    micros = attr_read(attr_init("micros", 1000));
    display = framebuffer_init(&width, &height);
    const pin_watch_config_t watch = {.edge = BOTH, .pin_change = on_change};
    pin_watch(in, &watch);
}
