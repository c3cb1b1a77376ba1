// A clock with 56 bytes of memory on I2C at address 0x68 (DS1307). Registers 0 to 6 have the time in binary coded decimals, 7 the
// control of SQW, 8 to 63 are memory. A write's first byte is the register's number, which each further byte counts, 63 before 0.
// A START takes the time as it is, so that a read of several registers fits together. Bit 7 of register 0 holds the clock.
// The attribute `time` is the time at the beginning, in seconds from 1970 on.
#include "wokwi-api.h"

enum { SECONDS, MINUTES, HOURS, WEEKDAY, DAY, MONTH, YEAR, CONTROL, SIZE = 64 };
enum { HALT = 0x80, TWELVE = 0x40, AFTERNOON = 0x20 };
enum { OUT = 0x80, SQWE = 0x10 };

static uint8_t memory[SIZE];
static uint32_t place;
static bool first;
static timer_t second;
static timer_t square;
static pin_t sqw;
static bool square_level;

static uint8_t coded(uint32_t number) {
    return number / 10 << 4 | number % 10;
}

static uint32_t number(uint8_t coded) {
    return (coded >> 4) * 10u + (coded & 15);
}

static bool leap(uint32_t year) {
    return year % 4 == 0;
}

static uint32_t days_of(uint32_t month, uint32_t year) {
    if (month == 2) {
        return leap(year) ? 29 : 28;
    }
    return month == 4 || month == 6 || month == 9 || month == 11 ? 30 : 31;
}

static void set_time(uint32_t seconds) {
    uint32_t days = seconds / 86400;
    uint32_t rest = seconds % 86400;
    memory[SECONDS] = coded(rest % 60);
    memory[MINUTES] = coded(rest / 60 % 60);
    memory[HOURS] = coded(rest / 3600);
    memory[WEEKDAY] = (days + 4) % 7 + 1; // 1970 began on a Thursday, and 1 is Sunday
    uint32_t year = 1970;
    while (days >= (leap(year) ? 366u : 365u)) {
        days -= leap(year) ? 366 : 365;
        year++;
    }
    uint32_t month = 1;
    while (days >= days_of(month, year)) {
        days -= days_of(month, year);
        month++;
    }
    memory[DAY] = coded(days + 1);
    memory[MONTH] = coded(month);
    memory[YEAR] = coded(year % 100);
}

// One more, and whether it began anew.
static bool counts(uint32_t reg, uint32_t least, uint32_t most) {
    uint32_t next = number(memory[reg]) + 1;
    bool over = next > most;
    memory[reg] = coded(over ? least : next);
    return over;
}

static bool hour_counts(void) {
    if (!(memory[HOURS] & TWELVE)) {
        return counts(HOURS, 0, 23);
    }
    uint32_t hour = number(memory[HOURS] & 0x1F) % 12 + 1;
    uint8_t half = memory[HOURS] & AFTERNOON;
    if (hour == 12) {
        half ^= AFTERNOON;
    }
    memory[HOURS] = TWELVE | half | coded(hour);
    return hour == 12 && !half;
}

static void on_second(void *user_data) {
    (void)user_data;
    if (memory[SECONDS] & HALT) {
        return;
    }
    if (!counts(SECONDS, 0, 59) || !counts(MINUTES, 0, 59) || !hour_counts()) {
        return;
    }
    memory[WEEKDAY] = memory[WEEKDAY] % 7 + 1;
    uint32_t year = number(memory[YEAR]);
    if (counts(DAY, 1, days_of(number(memory[MONTH]), year)) && counts(MONTH, 1, 12)) {
        counts(YEAR, 0, 99);
    }
}

// SQW is low or open.
static void show(bool high) {
    pin_mode(sqw, high ? INPUT_PULLUP : OUTPUT_LOW);
}

static void on_square(void *user_data) {
    (void)user_data;
    square_level = !square_level;
    show(square_level);
}

static void control(void) {
    static const uint32_t half_nanos[] = {500000000, 122070, 61035, 15259}; // 1 Hz, 4.096, 8.192 and 32.768 kHz
    timer_stop(square);
    if (memory[CONTROL] & SQWE) {
        timer_start_ns(square, half_nanos[memory[CONTROL] & 3], true);
    } else {
        show(memory[CONTROL] & OUT);
    }
}

static bool on_connect(void *user_data, uint32_t address, bool read) {
    (void)user_data;
    (void)address;
    first = !read;
    return true;
}

static uint8_t on_read(void *user_data) {
    (void)user_data;
    uint8_t byte = memory[place];
    place = (place + 1) % SIZE;
    return byte;
}

static bool on_write(void *user_data, uint8_t data) {
    (void)user_data;
    if (first) {
        first = false;
        place = data % SIZE;
        return true;
    }
    memory[place] = data;
    if (place == SECONDS) {
        timer_start(second, 1000000, true); // a write of the seconds begins a second
    } else if (place == CONTROL) {
        control();
    }
    place = (place + 1) % SIZE;
    return true;
}

void chip_init(void) {
    set_time(attr_read(attr_init("time", 946684800)));
    sqw = pin_init("SQW", INPUT_PULLUP);
    const timer_config_t seconds = {.callback = on_second};
    second = timer_init(&seconds);
    timer_start(second, 1000000, true);
    const timer_config_t squares = {.callback = on_square};
    square = timer_init(&squares);
    const i2c_config_t config = {
        .address = 0x68,
        .scl = pin_init("SCL", INPUT_PULLUP),
        .sda = pin_init("SDA", INPUT_PULLUP),
        .connect = on_connect,
        .read = on_read,
        .write = on_write,
    };
    i2c_init(&config);
}
