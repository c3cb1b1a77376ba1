// An I2C thermometer at address 0x48. A read gives the temperature in 1/256 of a degree Celsius, the higher byte first, again
// and again; what is written is taken and counts for nothing. The attribute `temperature` is in thousandths of a degree.
#include "wokwi-api.h"

static uint32_t temperature;
static uint32_t sent;

static bool on_connect(void *user_data, uint32_t address, bool read) {
    (void)user_data;
    (void)address;
    (void)read;
    sent = 0;
    return true;
}

static uint8_t on_read(void *user_data) {
    (void)user_data;
    int32_t value = (int32_t)attr_read(temperature) * 32 / 125;
    sent++;
    return sent & 1 ? value >> 8 : value;
}

static bool on_write(void *user_data, uint8_t data) {
    (void)user_data;
    (void)data;
    return true;
}

void chip_init(void) {
    temperature = attr_init("temperature", 20000);
    const i2c_config_t config = {
        .address = 0x48,
        .scl = pin_init("SCL", INPUT_PULLUP),
        .sda = pin_init("SDA", INPUT_PULLUP),
        .connect = on_connect,
        .read = on_read,
        .write = on_write,
    };
    i2c_init(&config);
}
