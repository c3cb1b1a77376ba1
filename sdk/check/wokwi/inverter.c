// A chip as one writes it for Wokwi: its state is allocated, and it says that it is there. OUT is the inverse of IN.
#include "wokwi-api.h"
#include <stdio.h>
#include <stdlib.h>

typedef struct {
  pin_t pin_in;
  pin_t pin_out;
} chip_state_t;

static void on_pin_change(void *user_data, pin_t pin, uint32_t value);

void chip_init() {
  chip_state_t *chip = malloc(sizeof(chip_state_t));
  chip->pin_in = pin_init("IN", INPUT);
  chip->pin_out = pin_init("OUT", OUTPUT);

  const pin_watch_config_t watch = {
    .edge = BOTH,
    .pin_change = on_pin_change,
    .user_data = chip,
  };
  pin_watch(chip->pin_in, &watch);

  printf("The inverter is ready\n");
}

void on_pin_change(void *user_data, pin_t pin, uint32_t value) {
  chip_state_t *chip = (chip_state_t *)user_data;
  printf("pin %d is %s\n", (int)pin, value ? "high" : "low");
  pin_write(chip->pin_out, !value);
}
