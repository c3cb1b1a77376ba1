// Types texts at TX, each at its time: they come from attributes of the part, or were put into the module by typist.py.
#include "wokwi-api.h"

#define ABSENT 0xFFFFFFFF

// The texts one after the other: the time in microseconds and the number of bytes as 4 bytes each, the lowest first, then the
// bytes. A text without bytes is the end.
static uint8_t typed[32768];

// Where the next text is.
static uint32_t place;
static uart_dev_t uart;
static timer_t timer;

// typist.py asks for the address here.
CHIP_EXPORT("typed") uint8_t *typed_address(void) {
    return typed;
}

// ---- sending

static uint32_t word(uint32_t at) {
    return typed[at] | typed[at + 1] << 8 | typed[at + 2] << 16 | (uint32_t)typed[at + 3] << 24;
}

static void send(void *user_data) {
    (void)user_data;
    uint32_t count = word(place + 4);
    uart_write(uart, &typed[place + 8], count);
    place += 8 + count;
}

// Sends the next text, or waits for its time.
static void next(void *user_data) {
    if (word(place + 4) == 0) {
        return;
    }
    uint64_t due = word(place) * 1000ull;
    uint64_t now = get_sim_nanos();
    if (now < due) {
        timer_start_ns(timer, due - now, false);
    } else {
        send(user_data);
    }
}

// ---- the attributes

static char *put_digits(char *to, uint32_t number) {
    if (number > 9) {
        to = put_digits(to, number / 10);
    }
    *to = '0' + number % 10;
    return to + 1;
}

// The attribute `atN`, or `textN.M` where M is not 0.
static uint32_t attribute(const char *kind, uint32_t n, uint32_t m) {
    char name[32];
    char *end = name;
    while (*kind) {
        *end++ = *kind++;
    }
    end = put_digits(end, n);
    if (m > 0) {
        *end++ = '.';
        end = put_digits(end, m);
    }
    *end = 0;
    return attr_read(attr_init(name, ABSENT));
}

static void put_word(uint32_t at, uint32_t value) {
    for (uint32_t i = 0; i < 4; i++) {
        typed[at + i] = value >> 8 * i;
    }
}

// Three digits for a byte: one, two or three bytes of a number, and how many they are.
static uint32_t put_codes(uint32_t at, uint32_t number) {
    uint32_t count = number < 1000 ? 1 : number < 1000000 ? 2 : 3;
    for (uint32_t i = count; i > 0; i--) {
        if (number % 1000 > 256) {
            __builtin_trap();
        }
        typed[at + i - 1] = number % 1000;
        number /= 1000;
    }
    if (number > 0) {
        __builtin_trap();
    }
    return count;
}

static uint32_t put_text(uint32_t at, uint32_t n) {
    uint32_t end = at;
    uint32_t codes;
    for (uint32_t m = 1; (codes = attribute("text", n, m)) != ABSENT; m++) {
        uint32_t count = put_codes(end, codes);
        end += count;
        if (count < 3) {
            break;
        }
    }
    return end - at;
}

static void read_attributes(void) {
    uint32_t at = 0;
    uint32_t due;
    for (uint32_t n = 1; (due = attribute("at", n, 0)) != ABSENT; n++) {
        uint32_t count = put_text(at + 8, n);
        put_word(at, due);
        put_word(at + 4, count);
        at += count ? 8 + count : 0;
    }
}

void chip_init(void) {
    const uart_config_t config = {
        .rx = NO_PIN,
        .tx = pin_init("TX", INPUT_PULLUP),
        .baud_rate = attr_read(attr_init("baud", 9600)),
        .write_done = next,
    };
    uart = uart_init(&config);
    const timer_config_t clock = {.callback = send};
    timer = timer_init(&clock);
    if (word(4) == 0) {
        read_attributes();
    }
    next(0);
}
