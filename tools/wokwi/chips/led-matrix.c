// A bare matrix of 8 x 8 LEDs: one is lit while its row R is high and its column C low; with the attribute `cathode` while the row is low
// and the column high. Firmware lights the rows in turn, so the display has how much of the last 10 ms each LED was lit: red, 0 to 255.
#include "wokwi-api.h"

enum { SIDE = 8, WINDOW = 10000000 }; // ns

static pin_t rows[SIDE], columns[SIDE];
static buffer_t display;
static timer_t timer;
static uint32_t cathode;
static uint32_t lit[SIDE];        // of each row, a bit for each column
static uint64_t spent[SIDE][SIDE]; // ns in this window
static uint64_t last;             // when that was counted
static bool is_idle;              // nothing is lit, nor was in the last window

static void count(void) {
    uint64_t now = get_sim_nanos();
    for (uint32_t row = 0; row < SIDE; row++) {
        for (uint32_t column = 0; lit[row] >> column; column++) {
            spent[row][column] += lit[row] >> column & 1 ? now - last : 0;
        }
    }
    last = now;
}

static void on_edge(void *user_data, pin_t pin, uint32_t value) {
    (void)user_data;
    (void)pin;
    (void)value;
    count();
    uint32_t low = 0;
    for (uint32_t column = 0; column < SIDE; column++) {
        low |= (pin_read(columns[column]) == cathode) << column;
    }
    for (uint32_t row = 0; row < SIDE; row++) {
        lit[row] = pin_read(rows[row]) != cathode ? low : 0;
        if (lit[row] && is_idle) {
            is_idle = false;
            timer_start_ns(timer, WINDOW, true);
        }
    }
}

static void on_window(void *user_data) {
    (void)user_data;
    uint8_t pixels[4 * SIDE * SIDE];
    bool is_dark = true;
    count();
    for (uint32_t at = 0; at < SIDE * SIDE; at++) {
        uint64_t *time = &spent[at / SIDE][at % SIDE];
        pixels[4 * at] = (uint8_t)(*time * 255 / WINDOW);
        pixels[4 * at + 1] = pixels[4 * at + 2] = 0;
        pixels[4 * at + 3] = 255;
        is_dark &= *time == 0;
        *time = 0;
    }
    buffer_write(display, 0, pixels, sizeof pixels);
    if (is_dark) {
        is_idle = true;
        timer_stop(timer);
    }
}

void chip_init(void) {
    static const char *const names[2][SIDE] = {{"R1", "R2", "R3", "R4", "R5", "R6", "R7", "R8"}, {"C1", "C2", "C3", "C4", "C5", "C6", "C7", "C8"}};
    uint32_t width, height;
    display = framebuffer_init(&width, &height);
    cathode = attr_read(attr_init("cathode", 0)) != 0;
    const timer_config_t times = {.callback = on_window};
    timer = timer_init(&times);
    is_idle = true;
    const pin_watch_config_t watch = {.edge = BOTH, .pin_change = on_edge};
    for (uint32_t at = 0; at < SIDE; at++) {
        // an open pin lights nothing
        rows[at] = pin_init(names[0][at], cathode ? INPUT_PULLUP : INPUT_PULLDOWN);
        columns[at] = pin_init(names[1][at], cathode ? INPUT_PULLDOWN : INPUT_PULLUP);
        pin_watch(rows[at], &watch);
        pin_watch(columns[at], &watch);
    }
}
