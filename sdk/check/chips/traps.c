// Ends by the trap whose number is the attribute `micros`.
#include "wokwi-api.h"

static volatile int32_t number;
static volatile int32_t result;
static volatile double real;
static void (*volatile function)(void);

static void late(void *user_data) {
    pin_init("OUT", OUTPUT);
}

static void deeper(void) {
    if (number) {
        deeper();
    }
    result++;
}

static int32_t other(int32_t value) {
    return value + number;
}

void chip_init(void) {
    const timer_config_t config = {.callback = late};
    timer_t timer = timer_init(&config);
    number = attr_read(attr_init("micros", 0));
    switch (number) {
    case 1:
        __builtin_trap();
    case 2:
        result = *(volatile int32_t *)0x400000;
        break;
    case 3:
        result = number / (number - 3);
        break;
    case 4:
        result = -2147483647 - 1;
        number = -1;
        result = result / number;
        break;
    case 5:
        function = (void (*)(void))1000;
        function();
        break;
    case 6:
        function();
        break;
    case 7:
        function = (void (*)(void))other;
        function();
        break;
    case 8:
        deeper();
        break;
    case 9:
        while (number) {
        }
        break;
    case 10:
        pin_init((const char *)0x400000, INPUT);
        break;
    case 11:
        pin_init("0123456789012345678901234567890123456789012345678901234567890123", INPUT);
        break;
    case 12:
        timer_start(timer, 1, false);
        break;
    case 13:
        for (int32_t i = 0; i < 32; i++) {
            timer_init(&config);
        }
        break;
    case 14:
        real = number;
        break;
    }
}
