// A dimmer with a slider: `level` percent of each millisecond OUT is high, and each third one is printed. Written for Wokwi, with the
// controls that its JSON file lists.
#include "wokwi-api.h"
#include <stdio.h>

typedef struct {
  pin_t out;
  timer_t timer;
  uint32_t level;
  uint32_t offset;
  bool high;
  int periods;
} chip_state_t;

static chip_state_t chip;

static void on_timer(void *user_data) {
  chip_state_t *it = user_data;
  uint32_t percent = attr_read(it->level) + attr_read(it->offset);
  if (percent > 100) {
    percent = 100;
  }
  it->high = !it->high && percent > 0;
  pin_write(it->out, it->high);
  timer_start(it->timer, it->high ? 10 * percent : 1000 - 10 * percent, false);
  if (it->high && ++it->periods % 3 == 0) {
    printf("%d %%\n", (int)percent);
  }
}

void chip_init(void) {
  chip.out = pin_init("OUT", OUTPUT_LOW);
  chip.offset = attr_init("offset", 0);
  chip.level = attr_init("level", 50);
  const timer_config_t config = {.user_data = &chip, .callback = on_timer};
  chip.timer = timer_init(&config);
  timer_start(chip.timer, 10, false);
}
