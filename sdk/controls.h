// Included before the source of a chip whose JSON file has `controls` (tools/wokwi/lower.py): attr_read of such an attribute follows what
// a hand moves (control.h), and the chip needs no edit. CHIP_CONTROLS are {name, least, step, places} of each control, in the file's order.
#ifndef CONTROLS_H
#define CONTROLS_H
#include "control.h"

static const struct {
    const char *name;
    int32_t least, step;
    uint32_t places;
} chip_controls[] = {CHIP_CONTROLS};

static bool is_same_name(const char *one, const char *other) {
    while (*one && *one == *other) {
        one++;
        other++;
    }
    return *one == *other;
}

// Of a control it has the highest bit, which the number of no attribute has.
__attribute__((unused)) static uint32_t chip_attr_init(const char *name, uint32_t given) {
    const uint32_t count = sizeof chip_controls / sizeof chip_controls[0];
    if (!control_count) {
        for (uint32_t at = 0; at < count; at++) {
            controls[at] = (control_t){0, chip_controls[at].least, chip_controls[at].step, chip_controls[at].places, 0};
        }
        control_count = count;
        control_watch();
    }
    uint32_t attr = attr_init(name, given);
    for (uint32_t at = 0; at < count; at++) {
        if (is_same_name(name, chip_controls[at].name)) {
            controls[at].attr = attr;
            return 0x80000000u | at;
        }
    }
    return attr;
}

__attribute__((unused)) static uint32_t chip_attr_read(uint32_t attr) {
    return attr >> 31 ? (uint32_t)control_read(attr & 0x7FFFFFFFu) : attr_read(attr);
}

#define attr_init chip_attr_init
#define attr_read chip_attr_read
#endif
