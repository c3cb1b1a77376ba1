// A display of four digits with a colon (TM1637). DIO falling while CLK is high begins, DIO rising while CLK is high ends; a bit is
// taken as CLK rises, the lowest first; after eight it holds DIO low until CLK has fallen twice, to acknowledge. No key is pressed: a
// read of the keys finds DIO high. The display has a
// pixel for each digit: its segments, A in bit 0, bit 7 the colon; the brightness, 0 where it is off, else 1 to 8.
#include "wokwi-api.h"

enum { DIGITS = 4, MEMORY = 6 };

static pin_t clk;
static pin_t dio;
static buffer_t display;
static uint8_t cells[MEMORY];
static uint32_t bright; // 0: off
static uint32_t bits;   // with a 1 before those of the byte
static uint32_t falls;  // of CLK since the eighth bit
static uint32_t place;
static bool active;
static bool first;  // whether the next byte is a command
static bool fixed;
static bool writes;

static void show(void) {
    uint8_t pixels[4 * DIGITS];
    for (uint32_t digit = 0; digit < DIGITS; digit++) {
        pixels[4 * digit] = cells[digit];
        pixels[4 * digit + 1] = (uint8_t)bright;
        pixels[4 * digit + 2] = 0;
        pixels[4 * digit + 3] = 255;
    }
    buffer_write(display, 0, pixels, sizeof pixels);
}

static void take(uint8_t byte) {
    if (first) {
        first = false;
        switch (byte >> 6) {
        case 1:
            fixed = byte & 4;
            break;
        case 2:
            bright = byte & 8 ? (byte & 7) + 1 : 0;
            break;
        case 3:
            place = byte & 15;
            writes = true;
            break;
        }
    } else if (writes) {
        if (place < MEMORY) {
            cells[place] = byte;
        }
        if (!fixed) {
            place++;
        }
    }
    show();
}

static void on_clk(void *user_data, pin_t pin, uint32_t value) {
    if (!active) {
        return;
    }
    if (value) {
        if (falls == 0) {
            bits = bits << 1 | pin_read(dio);
        }
        return;
    }
    if (bits >> 8) {
        if (falls++ == 0) {
            pin_mode(dio, OUTPUT_LOW);
            uint8_t byte = 0;
            for (uint32_t bit = 0; bit < 8; bit++) {
                byte |= (bits >> (7 - bit) & 1) << bit;
            }
            take(byte);
        } else {
            pin_mode(dio, INPUT_PULLUP);
            bits = 1;
            falls = 0;
        }
    }
}

static void on_dio(void *user_data, pin_t pin, uint32_t value) {
    if (!pin_read(clk)) {
        return;
    }
    active = !value;
    if (active) {
        bits = 1;
        falls = 0;
        first = true;
        writes = false;
    }
}

void chip_init(void) {
    uint32_t width, height;
    display = framebuffer_init(&width, &height);
    bits = 1;
    clk = pin_init("CLK", INPUT_PULLUP);
    dio = pin_init("DIO", INPUT_PULLUP);
    const pin_watch_config_t clock = {.edge = BOTH, .pin_change = on_clk};
    const pin_watch_config_t data = {.edge = BOTH, .pin_change = on_dio};
    pin_watch(clk, &clock);
    pin_watch(dio, &data);
    show();
}
