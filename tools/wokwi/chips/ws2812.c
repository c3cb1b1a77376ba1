// A chain of WS2812 (NeoPixel): each pixel takes 24 bits, green, red, blue, each with its highest bit first, and passes the rest on.
// A bit is 1 where DIN is high for 600 ns or more, which tells it at 800 kHz and at 400 kHz. Where DIN is low and rose 51 us ago or more,
// the pixels show what they took. The display has a pixel for each, row by row; with the attribute `serpentine` each second row goes from right to left.
#include "wokwi-api.h"

enum {
    ONE = 600,     // ns
    LATCH = 51000, // ns
    MOST = 65536,  // pixels
    FULL = 0,
};

static pin_t in;
static pin_t out;
static buffer_t display;
static timer_t latch;
static uint8_t taken[4 * MOST];
static uint32_t count;
static uint32_t width;
static bool is_serpentine;
static uint32_t at;    // the pixel that takes bits
static uint32_t bits;  // with a 1 before those that it took, or FULL where all pixels have theirs
static uint64_t rose;  // when DIN did so last, in ns

// The place of the pixel that is `at`-th on the wire.
static uint32_t place_of(uint32_t at) {
    uint32_t row = at / width;
    return is_serpentine && row % 2 ? row * width + width - 1 - at % width : at;
}

// Gives a pixel its 24 bits; what comes after is the next one's.
static uint32_t take(uint32_t colour) {
    uint8_t *pixel = &taken[4 * place_of(at)];
    pixel[0] = (uint8_t)(colour >> 8);
    pixel[1] = (uint8_t)(colour >> 16);
    pixel[2] = (uint8_t)colour;
    pixel[3] = 255;
    at++;
    return at < count ? 1 : FULL;
}

static void on_edge(void *user_data, pin_t pin, uint32_t value) {
    uint64_t now = get_sim_nanos();
    uint32_t all = bits;
    if (all == FULL) {
        pin_write(out, value);
    }
    if (value) {
        rose = now;
    } else if (all != FULL) {
        all = all << 1 | (now - rose >= ONE);
        if (all >> 24) {
            all = take(all);
        } else if (all < 4 && at == 0) {
            timer_start_ns(latch, LATCH, false);
        }
        bits = all;
    }
}

// Looks again where DIN has risen since, or is still high.
static void on_latch(void *user_data) {
    uint64_t still = get_sim_nanos() - rose;
    if (pin_read(in) || still < LATCH) {
        timer_start_ns(latch, pin_read(in) ? LATCH : LATCH - still, false);
        return;
    }
    buffer_write(display, 0, taken, 4 * count);
    at = 0;
    bits = 1;
}

void chip_init(void) {
    uint32_t height = 0;
    display = framebuffer_init(&width, &height);
    count = width * height < MOST ? width * height : MOST;
    bits = 1;
    is_serpentine = attr_read(attr_init("serpentine", 0));
    out = pin_init("DOUT", OUTPUT_LOW);
    const timer_config_t times = {.callback = on_latch};
    latch = timer_init(&times);
    const pin_watch_config_t watch = {.edge = BOTH, .pin_change = on_edge};
    in = pin_init("DIN", INPUT);
    pin_watch(in, &watch);
}
