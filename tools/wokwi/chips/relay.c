// A relay of one or two poles. It is on where ON reads other than OFF, or, with the attribute `low`, where it reads the same.
// While it is on, NOn has the level of Pn, else NCn has it; the other one of the two is open. It works 5 ms after ON changes.
// A level goes from Pn to the contacts and not back, and a Pn that nothing drives is low.
#include "wokwi-api.h"

enum { POLES = 2, WORKS = 5000 };

static pin_t on;
static pin_t off;
static uint32_t low;
static bool closed;
static timer_t timer;
static struct {
    pin_t common;
    pin_t contact[2]; // closed while the relay is off, and while it is on
} poles[POLES];

static void pass(uint32_t pole) {
    pin_t to = poles[pole].contact[closed];
    pin_mode(poles[pole].contact[!closed], INPUT);
    pin_write(to, pin_read(poles[pole].common));
    pin_mode(to, OUTPUT);
}

static void on_coil(void *user_data, pin_t pin, uint32_t value) {
    (void)user_data;
    (void)pin;
    (void)value;
    timer_start(timer, WORKS, false);
}

static void on_timer(void *user_data) {
    (void)user_data;
    closed = (pin_read(on) != pin_read(off)) != (attr_read(low) != 0);
    pass(0);
    pass(1);
}

static void on_common(void *user_data, pin_t pin, uint32_t value) {
    (void)pin;
    (void)value;
    pass((uint32_t)user_data);
}

void chip_init(void) {
    static const char *const names[POLES][3] = {{"P1", "NC1", "NO1"}, {"P2", "NC2", "NO2"}};
    low = attr_init("low", 0);
    on = pin_init("ON", INPUT);
    off = pin_init("OFF", INPUT);
    const pin_watch_config_t coil = {.edge = BOTH, .pin_change = on_coil};
    pin_watch(on, &coil);
    pin_watch(off, &coil);
    for (uint32_t pole = 0; pole < POLES; pole++) {
        poles[pole].common = pin_init(names[pole][0], INPUT);
        poles[pole].contact[0] = pin_init(names[pole][1], INPUT);
        poles[pole].contact[1] = pin_init(names[pole][2], INPUT);
        const pin_watch_config_t watch = {.user_data = (void *)pole, .edge = BOTH, .pin_change = on_common};
        pin_watch(poles[pole].common, &watch);
    }
    const timer_config_t times = {.callback = on_timer};
    timer = timer_init(&times);
    timer_start_ns(timer, 1, false); // as the coil is at the beginning
}
