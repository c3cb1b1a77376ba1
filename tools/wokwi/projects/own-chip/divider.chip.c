// Changes OUT at every so many rises of IN.
#include "wokwi-api.h"

static pin_t out;
static uint32_t by, count, level;

static void on_rise(void *user_data, pin_t pin, uint32_t value) {
  (void)user_data, (void)pin, (void)value;
  if (++count == attr_read(by)) {
    count = 0;
    level = !level;
    pin_write(out, level);
  }
}

void chip_init(void) {
  by = attr_init("by", 2);
  out = pin_init("OUT", OUTPUT_LOW);
  const pin_watch_config_t watch = {.edge = RISING, .pin_change = on_rise};
  pin_watch(pin_init("IN", INPUT), &watch);
}
