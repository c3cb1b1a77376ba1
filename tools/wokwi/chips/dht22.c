// A sensor of temperature and humidity with one wire (AM2302/DHT22): where the wire was low for 0.8 ms it answers with 40 bits,
// the humidity and the temperature in tenths, 16 bits each, and the sum of their bytes. A negative temperature has bit 15 set.
// The attributes `temperature` and `humidity` are in tenths of a degree Celsius and of a percent; a hand
// moves them from -400 to 800 and from 0 to 1000.
#include "control.h"

enum {
    BITS = 40,
    // microseconds: what the host holds the wire low at least, the wait before the answer, and the parts of the answer
    CALL = 800,
    WAIT = 30,
    HELLO = 80,
    GAP = 50,
    ZERO = 26,
    ONE = 70,
};

static pin_t wire;
static timer_t timer;
static uint32_t temperature;
static uint32_t humidity;
static uint64_t fell;
static uint8_t answer[BITS / 8];
// the moves of the wire that were made: down, up, then down and up for each bit, and down once more
static uint32_t moves;
static bool busy;

static void drive(bool low) {
    pin_mode(wire, low ? OUTPUT_LOW : INPUT_PULLUP);
}

static uint32_t bit(uint32_t place) {
    return answer[place / 8] >> (7 - place % 8) & 1;
}

static void on_timer(void *user_data) {
    (void)user_data;
    uint32_t move = moves++;
    bool low = move % 2 == 0;
    uint32_t place = move / 2;
    if (move == 2 * BITS + 3) {
        drive(false);
        busy = false;
        return;
    }
    drive(low);
    if (place == 0) {
        timer_start(timer, HELLO, false);
    } else if (low) {
        timer_start(timer, GAP, false);
    } else {
        timer_start(timer, bit(place - 1) ? ONE : ZERO, false);
    }
}

static void measure(void) {
    int32_t degrees = control_read(temperature);
    uint32_t percent = (uint32_t)control_read(humidity);
    uint32_t code = degrees < 0 ? 0x8000 | (uint32_t)-degrees : (uint32_t)degrees;
    answer[0] = percent >> 8;
    answer[1] = percent;
    answer[2] = code >> 8;
    answer[3] = code;
    answer[4] = answer[0] + answer[1] + answer[2] + answer[3];
}

static void on_change(void *user_data, pin_t pin, uint32_t value) {
    (void)user_data;
    (void)pin;
    if (busy) {
        return;
    }
    uint64_t now = get_sim_nanos();
    if (!value) {
        fell = now;
    } else if (fell && now - fell >= CALL * 1000) {
        busy = true;
        fell = 0;
        moves = 0;
        measure();
        timer_start(timer, WAIT, false);
    }
}

void chip_init(void) {
    temperature = control_init("temperature", 240, -400, 1, 1201);
    humidity = control_init("humidity", 400, 0, 1, 1001);
    control_watch();
    wire = pin_init("SDA", INPUT_PULLUP);
    const timer_config_t times = {.callback = on_timer};
    timer = timer_init(&times);
    const pin_watch_config_t watch = {.edge = BOTH, .pin_change = on_change};
    pin_watch(wire, &watch);
}
