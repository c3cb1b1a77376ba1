// An ultrasonic distance sensor (HC-SR04): a pulse of 10 us on TRIG makes one on ECHO, which is high for the sound's way there
// and back, 58 us for a centimetre. It begins 460 us after the pulse, when its own 8 cycles of 40 kHz are sent, and is 38 ms long
// where nothing is within 4 m. The attribute `distance` is in millimetres, and a hand
// moves it from 20 to 4000.
#include "control.h"

enum {
    PULSE = 10,      // us
    BURST = 460,     // us
    NOTHING = 38000, // us
    NEAREST = 20,    // mm
    FARTHEST = 4000, // mm
};

static pin_t echo;
static timer_t timer;
static uint32_t distance;
static uint64_t rose;
static enum { IDLE, SENDING, HEARING } state;

static uint64_t way_nanos(void) {
    uint32_t mm = (uint32_t)control_read(distance);
    if (mm > FARTHEST) {
        return NOTHING * 1000ull;
    }
    return (mm < NEAREST ? NEAREST : mm) * 5800ull;
}

static void on_timer(void *user_data) {
    (void)user_data;
    if (state == SENDING) {
        pin_write(echo, HIGH);
        timer_start_ns(timer, way_nanos(), false);
        state = HEARING;
    } else {
        pin_write(echo, LOW);
        state = IDLE;
    }
}

static void on_trigger(void *user_data, pin_t pin, uint32_t value) {
    (void)user_data;
    (void)pin;
    uint64_t now = get_sim_nanos();
    if (value) {
        rose = now;
    } else if (state == IDLE && rose && now - rose >= PULSE * 1000 - 1000) {
        state = SENDING;
        timer_start(timer, BURST, false);
    }
}

void chip_init(void) {
    distance = control_init("distance", 4000, NEAREST, 1, FARTHEST - NEAREST + 1);
    control_watch();
    echo = pin_init("ECHO", OUTPUT_LOW);
    const timer_config_t times = {.callback = on_timer};
    timer = timer_init(&times);
    const pin_watch_config_t watch = {.edge = BOTH, .pin_change = on_trigger};
    pin_watch(pin_init("TRIG", INPUT), &watch);
}
