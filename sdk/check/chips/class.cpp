// OUT follows IN. Ends by a trap where the constructor of a static object has not run.
#include "wokwi-api.h"
#include <string.h>

struct Follower {
    pin_t out = NO_PIN;
    uint8_t bytes[40];

    Follower() { memset(bytes, 7, sizeof bytes); }
};

static Follower follower;

void chip_init(void) {
    if (follower.bytes[39] != 7) {
        __builtin_trap();
    }
    follower.out = pin_init("OUT", OUTPUT_LOW);
    const pin_watch_config_t watch = {
        &follower, BOTH, [](void *data, pin_t, uint32_t value) { pin_write(static_cast<Follower *>(data)->out, value); }};
    pin_watch(pin_init("IN", INPUT), &watch);
}
