// Types bytes on TX at their times, 8 data bits, no parity, one stop bit. What is typed is in `script` after its first line, where
// ../typist.py puts it by a data segment of its own in a copy of the module: for each text its time in microseconds and its
// length, 4 bytes each with the lowest first, and its bytes; a length of 0 is the end. The attribute `baud` is the speed.
#include "wokwi-api.h"

enum { SIZE = 16384 };

static uint8_t script[SIZE] = "what is typed:\n";
static const uint32_t begin = 16;
static uint32_t place;
static uart_dev_t uart;
static timer_t timer;

static uint32_t word(uint32_t at) {
    const volatile uint8_t *bytes = script;
    return bytes[at] | bytes[at + 1] << 8 | bytes[at + 2] << 16 | (uint32_t)bytes[at + 3] << 24;
}

// Waits for the time of the text that is next; one that is late is typed at once.
static void wait(void) {
    if (word(place + 4) == 0) {
        return;
    }
    uint64_t due = word(place) * 1000ull;
    uint64_t now = get_sim_nanos();
    timer_start_ns(timer, due > now ? due - now : 1, false);
}

static void on_timer(void *user_data) {
    (void)user_data;
    uart_write(uart, &script[place + 8], word(place + 4));
}

static void on_sent(void *user_data) {
    (void)user_data;
    place += 8 + word(place + 4);
    wait();
}

void chip_init(void) {
    const timer_config_t times = {.callback = on_timer};
    timer = timer_init(&times);
    const uart_config_t config = {
        .rx = NO_PIN,
        .tx = pin_init("TX", INPUT_PULLUP),
        .baud_rate = attr_read(attr_init("baud", 9600)),
        .write_done = on_sent,
    };
    uart = uart_init(&config);
    place = begin;
    wait();
}
