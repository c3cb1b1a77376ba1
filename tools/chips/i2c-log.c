// Two I2C slaves on one bus: the one at the attribute `address` keeps a log of its callbacks, the one at 0x21 is read for it.
// In the log 0xC0 is a connect to write, 0xC1 one to read, 0xD0 and a byte a write, 0xB0 and a byte a read, 0xF0 a disconnect.
// A write of 0x0F is not acknowledged; behind one of 0xEE the next connect is refused.
#include "wokwi-api.h"

static uint8_t log[64];
static uint32_t logged;
static uint32_t told;
static uint8_t next;
static bool refuses;

static void note(uint8_t byte) {
    if (logged < sizeof log) {
        log[logged++] = byte;
    }
}

static bool on_connect(void *user_data, uint32_t address, bool read) {
    (void)user_data;
    (void)address;
    note(0xC0 + read);
    if (refuses) {
        refuses = false;
        return false;
    }
    return true;
}

static uint8_t on_read(void *user_data) {
    (void)user_data;
    note(0xB0);
    note(next);
    next = next * 3 + 1;
    return log[logged - 1];
}

static bool on_write(void *user_data, uint8_t data) {
    (void)user_data;
    note(0xD0);
    note(data);
    refuses = data == 0xEE;
    return data != 0x0F;
}

static void on_disconnect(void *user_data) {
    (void)user_data;
    note(0xF0);
}

static uint8_t on_tell(void *user_data) {
    (void)user_data;
    if (told < logged) {
        return log[told++];
    }
    logged = told = 0;
    return 0;
}

void chip_init(void) {
    next = attr_read(attr_init("first", 0xA4));
    i2c_config_t config = {
        .address = 0x80 + attr_read(attr_init("address", 0x20)),
        .scl = pin_init("SCL", INPUT_PULLUP),
        .sda = pin_init("SDA", INPUT_PULLUP),
        .connect = on_connect,
        .read = on_read,
        .write = on_write,
        .disconnect = on_disconnect,
    };
    i2c_init(&config);
    const i2c_config_t telling = {.address = 0x21, .scl = config.scl, .sda = config.sda, .read = on_tell};
    if (attr_read(attr_init("tells", 1))) {
        i2c_init(&telling);
    }
}
