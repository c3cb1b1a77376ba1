// An accelerometer and gyroscope on I2C at address 0x68, 0x69 where AD0 is high (MPU-6050): its registers as they can be read and
// written, with acceleration, temperature and rotation as the attributes say, by the ranges that are set. While it
// sleeps, as at the beginning, they are 0. There is no motion detection, no FIFO and no interrupt.
// accelX to accelZ are in thousandths of g, rotationX to rotationZ in thousandths of a degree a second, temperature in
// thousandths of a degree Celsius. A hand moves them from -16 to 16 g by 0.01, from -2000 to 2000 degrees a second, and from -40 to
// 85 degrees by 0.1.
#include "control.h"

enum { SIZE = 128, GYRO_CONFIG = 0x1B, ACCEL_CONFIG = 0x1C, ACCEL_XOUT = 0x3B, LAST_OUT = 0x48, POWER = 0x6B, WHO_AM_I = 0x75 };
enum { RESET = 0x80, SLEEP = 0x40 };

static uint8_t memory[SIZE];
static uint32_t accel[3];
static uint32_t rotation[3];
static uint32_t temperature;
static uint32_t place;
static bool first;
static pin_t ad0;

static void reset(void) {
    for (uint32_t reg = 0; reg < SIZE; reg++) {
        memory[reg] = 0;
    }
    memory[POWER] = SLEEP;
    memory[WHO_AM_I] = 0x68;
}

static int32_t limited(int64_t value) {
    return value > 32767 ? 32767 : value < -32768 ? -32768 : (int32_t)value;
}

// The value of a word of the outputs: three accelerations, the temperature, three rotations.
static int32_t output(uint32_t word) {
    if (memory[POWER] & SLEEP) {
        return 0;
    }
    if (word < 3) {
        int64_t value = control_read(accel[word]);
        return limited(value * (16384 >> (memory[ACCEL_CONFIG] >> 3 & 3)) / 1000);
    }
    if (word == 3) {
        int64_t value = control_read(temperature);
        return limited((value - 36530) * 340 / 1000);
    }
    int64_t value = control_read(rotation[word - 4]);
    return limited(value * 131 / (1 << (memory[GYRO_CONFIG] >> 3 & 3)) / 1000);
}

static bool on_connect(void *user_data, uint32_t address, bool read) {
    bool high = pin_read(ad0);
    (void)address;
    first = !read;
    return high == (user_data != 0);
}

static uint8_t on_read(void *user_data) {
    (void)user_data;
    uint32_t reg = place;
    place = (place + 1) % SIZE;
    if (reg >= ACCEL_XOUT && reg <= LAST_OUT) {
        uint32_t offset = reg - ACCEL_XOUT;
        int32_t value = output(offset / 2);
        return offset % 2 ? value : value >> 8;
    }
    return memory[reg];
}

static bool on_write(void *user_data, uint8_t data) {
    (void)user_data;
    if (first) {
        first = false;
        place = data % SIZE;
        return true;
    }
    if (place == POWER && data & RESET) {
        reset();
    } else if (place != WHO_AM_I && !(place >= ACCEL_XOUT && place <= LAST_OUT)) {
        memory[place] = data;
    }
    place = (place + 1) % SIZE;
    return true;
}

void chip_init(void) {
    static const char *const names[] = {"accelX", "accelY", "accelZ", "rotationX", "rotationY", "rotationZ"};
    for (uint32_t axis = 0; axis < 3; axis++) {
        accel[axis] = control_init(names[axis], axis == 2 ? 1000 : 0, -16000, 10, 3201);
    }
    for (uint32_t axis = 0; axis < 3; axis++) {
        rotation[axis] = control_init(names[axis + 3], 0, -2000000, 1000, 4001);
    }
    temperature = control_init("temperature", 24000, -40000, 100, 1251);
    control_watch();
    ad0 = pin_init("AD0", INPUT_PULLDOWN);
    reset();
    const pin_t scl = pin_init("SCL", INPUT_PULLUP);
    const pin_t sda = pin_init("SDA", INPUT_PULLUP);
    for (uint32_t high = 0; high < 2; high++) {
        const i2c_config_t config = {
            .user_data = high ? &memory : 0,
            .address = 0x68 + high,
            .scl = scl,
            .sda = sda,
            .connect = on_connect,
            .read = on_read,
            .write = on_write,
        };
        i2c_init(&config);
    }
}
