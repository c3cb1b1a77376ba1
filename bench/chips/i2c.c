#include "wokwi-api.h"
static uint8_t count;
static uint8_t on_read(void *user_data) { (void)user_data; return count++; }
void chip_init(void) {
    const i2c_config_t config = {.address = 0x48, .scl = pin_init("A", INPUT), .sda = pin_init("B", INPUT), .read = on_read};
    i2c_init(&config);
}
