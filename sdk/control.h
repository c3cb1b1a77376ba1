// Attributes that a hand moves during a run. One pulse on the chip's pin `control` moves one of them: the pulse's length in cycles
// counts the places of all controls, one after another and from 1. So after a control of 50 places the next one has its first place at
// 51 cycles. Until it is moved an attribute is as the diagram gives it. tools/wokwi/moves.py makes the pulses.
#ifndef CONTROL_H
#define CONTROL_H
#include "wokwi-api.h"

enum { MOST_CONTROLS = 8 };

typedef struct {
    uint32_t attr;
    int32_t least; // the value at the first place
    int32_t step;  // between one place and the next
    uint32_t places;
    uint32_t place; // from 1; 0 before it is moved
} control_t;

static control_t controls[MOST_CONTROLS];
static uint32_t control_count;
static uint64_t control_rose;

static void on_control(void *user_data, pin_t pin, uint32_t value) {
    uint64_t now = get_sim_nanos();
    (void)user_data;
    (void)pin;
    if (value) {
        control_rose = now;
        return;
    }
    uint32_t place = (uint32_t)(((now - control_rose) * 2 + 62) / 125); // cycles
    for (uint32_t at = 0; at < control_count; at++) {
        if (place <= controls[at].places) {
            controls[at].place = place;
            return;
        }
        place -= controls[at].places;
    }
}

// One more control, in the order of its places.
__attribute__((unused)) static uint32_t control_init(const char *name, uint32_t given, int32_t least, int32_t step, uint32_t places) {
    controls[control_count] = (control_t){attr_init(name, given), least, step, places, 0};
    return control_count++;
}

static int32_t control_read(uint32_t control) {
    const control_t *it = &controls[control];
    return it->place ? it->least + it->step * (int32_t)(it->place - 1) : (int32_t)attr_read(it->attr);
}

static void control_watch(void) {
    const pin_watch_config_t watch = {.edge = BOTH, .pin_change = on_control};
    pin_watch(pin_init("control", INPUT), &watch);
}
#endif
