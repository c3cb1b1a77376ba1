#include "wokwi-api.h"
#include <stdlib.h>

typedef struct { pin_t in[3], out; } chip_t;

static void changed(void *user_data, pin_t pin, uint32_t value) {
  chip_t *chip = user_data;
  uint32_t sum = pin_read(chip->in[0]) + pin_read(chip->in[1]) + pin_read(chip->in[2]);
  pin_write(chip->out, sum >= 2 ? HIGH : LOW);
}

void chip_init(void) {
  chip_t *chip = malloc(sizeof(chip_t));
  const char *names[] = { "A", "B", "C" };
  chip->out = pin_init("OUT", OUTPUT_LOW);
  for (int i = 0; i < 3; i++) {
    chip->in[i] = pin_init(names[i], INPUT);
    const pin_watch_config_t config = { .edge = BOTH, .pin_change = changed, .user_data = chip };
    pin_watch(chip->in[i], &config);
  }
}
