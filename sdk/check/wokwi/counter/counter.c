// A chip as one writes it for Wokwi: an I2C counter at address 0x22. A write sets it, each byte that is read counts it up, and
// INT goes low when it is set above the attribute `threshold`.
#include "wokwi-api.h"
#include <stdio.h>
#include <stdlib.h>

const int ADDRESS = 0x22;

typedef struct {
  pin_t pin_int;
  uint8_t counter;
  uint32_t threshold_attr;
} chip_state_t;

static bool on_i2c_connect(void *user_data, uint32_t address, bool read);
static uint8_t on_i2c_read(void *user_data);
static bool on_i2c_write(void *user_data, uint8_t data);
static void on_i2c_disconnect(void *user_data);

void chip_init() {
  chip_state_t *chip = malloc(sizeof(chip_state_t));
  chip->pin_int = pin_init("INT", INPUT);
  chip->counter = 0;
  chip->threshold_attr = attr_init("threshold", 127);

  const i2c_config_t config = {
    .user_data = chip,
    .address = ADDRESS,
    .scl = pin_init("SCL", INPUT),
    .sda = pin_init("SDA", INPUT),
    .connect = on_i2c_connect,
    .read = on_i2c_read,
    .write = on_i2c_write,
    .disconnect = on_i2c_disconnect,
  };
  i2c_init(&config);

  printf("The counter is ready\n");
}

bool on_i2c_connect(void *user_data, uint32_t address, bool read) {
  printf("called to %s at 0x%02x\n", read ? "read" : "write", (unsigned)address);
  return true;
}

uint8_t on_i2c_read(void *user_data) {
  chip_state_t *chip = user_data;
  chip->counter++;
  return chip->counter;
}

bool on_i2c_write(void *user_data, uint8_t data) {
  chip_state_t *chip = user_data;
  chip->counter = data;
  if (data > attr_read(chip->threshold_attr)) {
    pin_mode(chip->pin_int, OUTPUT_LOW);
  }
  return true;
}

void on_i2c_disconnect(void *user_data) {
  // nothing to do
}
