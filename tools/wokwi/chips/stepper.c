// A stepper motor of 200 steps a turn: the two coils, A- to A+ and B- to B+, pull the rotor to one of eight places, half a step from
// one another, and it goes to the nearest such place. Where that is four half steps off it stays, as it does without a current. A field
// that lasts less than 20 us moves nothing, so the coils may be switched one after another. The display has one pixel: the half steps
// from the first place that it was pulled to, 24 bits, the low byte first, below zero from 2^24 down.
#include "wokwi-api.h"

enum { PLACES = 8, SETTLE = 20 }; // SETTLE in us

static pin_t pins[4];
static buffer_t display;
static timer_t settle;
static int32_t half_steps;
static int32_t first = -1; // the place of the first field, from which it counts

// The place of the field by the currents of A and B, each -1, 0 or 1; -1 where there is none.
static int32_t place_of(int32_t a, int32_t b) {
    static const int8_t places[3][3] = {{3, 4, 5}, {2, -1, 6}, {1, 0, 7}};
    return places[a + 1][b + 1];
}

static void show(void) {
    const uint8_t pixel[] = {(uint8_t)half_steps, (uint8_t)(half_steps >> 8), (uint8_t)(half_steps >> 16), 255};
    buffer_write(display, 0, pixel, sizeof pixel);
}

static void on_coil(void *user_data, pin_t pin, uint32_t value) {
    timer_start(settle, SETTLE, false);
}

static void on_settled(void *user_data) {
    int32_t a = (int32_t)pin_read(pins[1]) - (int32_t)pin_read(pins[0]);
    int32_t b = (int32_t)pin_read(pins[2]) - (int32_t)pin_read(pins[3]);
    int32_t place = place_of(a, b);
    if (place < 0) {
        return;
    }
    if (first < 0) {
        first = place;
    }
    int32_t off = (place - first - half_steps) & (PLACES - 1);
    if (off == PLACES / 2 || off == 0) {
        return;
    }
    half_steps += off < PLACES / 2 ? off : off - PLACES;
    show();
}

void chip_init(void) {
    static const char *const names[] = {"A-", "A+", "B+", "B-"};
    uint32_t width, height;
    display = framebuffer_init(&width, &height);
    const timer_config_t times = {.callback = on_settled};
    settle = timer_init(&times);
    const pin_watch_config_t watch = {.edge = BOTH, .pin_change = on_coil};
    for (uint32_t pin = 0; pin < 4; pin++) {
        pins[pin] = pin_init(names[pin], INPUT);
        pin_watch(pins[pin], &watch);
    }
    show();
}
