// Prints each callback of an I2C engine with its cycle.
#include "wokwi-api.h"
#include <stdio.h>
static unsigned now(void) {
    return (unsigned)(get_sim_nanos() / 62);
}
static int n;
static bool connect(void *u, uint32_t a, bool r) {
    printf("connect %u %d at %u\n", a, r, now());
    return n++ % 5 != 4;
}
static uint8_t rd(void *u) {
    printf("read at %u\n", now());
    return 0x5A + n;
}
static bool wr(void *u, uint8_t b) {
    printf("write %u at %u\n", b, now());
    return b != 13;
}
static void off(void *u) {
    printf("off at %u\n", now());
}
void chip_init(void) {
    const i2c_config_t c = {.address = 0x22,
                            .scl = pin_init("SCL", INPUT),
                            .sda = pin_init("SDA", INPUT_PULLUP),
                            .connect = connect,
                            .read = rd,
                            .write = wr,
                            .disconnect = off};
    i2c_init(&c);
}
