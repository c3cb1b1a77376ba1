// A text display with an HD44780, 16 by 2 or 20 by 4, by its pins or by an expander on I2C (PCF8574). It has the controller's
// instructions, 80 bytes of text, the 64 bytes of own characters, moving of the text, cursor and blinking. It is never busy, and takes no
// notice of reads (RW high).
//
// The display has a pixel for each character: its code; bit 0 the underline of the cursor, bit 1 a blinking one, bit 2 the light; and a
// row more, 16 pixels of which are the 64 bytes of own characters.
#include "wokwi-api.h"

enum { CELLS = 80, OWN = 64, CLEAR = 1, HOME = 2, ENTRY = 4, CONTROL = 8, SHIFT = 16, FUNCTION = 32, TO_OWN = 64, TO_TEXT = 128 };

static pin_t rs, rw, e, data[8];
static buffer_t display;
static uint32_t columns, lines;
static uint8_t text[CELLS];
static uint8_t own[OWN];
static uint8_t control, entry = 2, address, shift;
static bool in_own, is_wide = true, is_two, has_half, light;
static uint8_t half, port;

// The address counts through 0x00 to 0x27 and 0x40 to 0x67 with two lines, else through 0x00 to 0x4F.
static uint32_t place_of(uint8_t at) {
    uint32_t place = is_two ? (at & 0x40 ? 40 : 0) + (at & 0x3F) : at;
    return place % CELLS;
}

static uint8_t address_of(uint32_t place) {
    return (uint8_t)(is_two && place >= 40 ? 0x40 + place - 40 : place);
}

static void step(bool up) {
    if (in_own) {
        address = (address + (up ? 1 : OWN - 1)) % OWN;
    } else {
        address = address_of((place_of(address) + (up ? 1 : CELLS - 1)) % CELLS);
    }
}

static void show(void) {
    static uint8_t pixels[4 * 20 * 5];
    uint32_t length = is_two ? 40 : 80;
    for (uint32_t y = 0; y < lines; y++) {
        for (uint32_t x = 0; x < columns; x++) {
            uint32_t first = y & 1 ? 40 : 0;
            uint32_t column = (x + (y >> 1 ? columns : 0) + shift) % length;
            uint32_t place = (first + column) % CELLS;
            bool is_here = (control & 4) && !in_own && place_of(address) == place;
            uint8_t *pixel = &pixels[4 * (y * columns + x)];
            pixel[0] = control & 4 ? text[place] : ' ';
            pixel[1] = (uint8_t)((is_here ? (control >> 1 & 1) | (control & 1) << 1 : 0) | (light ? 4 : 0));
            pixel[2] = 0;
            pixel[3] = 255;
        }
    }
    buffer_write(display, 0, pixels, 4 * columns * lines);
    buffer_write(display, 4 * columns * lines, own, OWN);
}

static void move_text(bool left) {
    uint32_t length = is_two ? 40 : 80;
    shift = (uint8_t)((shift + (left ? 1 : length - 1)) % length);
}

static void write(uint8_t byte) {
    if (in_own) {
        own[address] = byte;
    } else {
        text[place_of(address)] = byte;
        if (entry & 1) {
            move_text(entry & 2);
        }
    }
    step(entry & 2);
}

static void home(void) {
    address = 0;
    shift = 0;
    in_own = false;
}

static void instruct(uint8_t byte) {
    if (byte & TO_TEXT) {
        address = byte & 0x7F;
        in_own = false;
    } else if (byte & TO_OWN) {
        address = byte & 0x3F;
        in_own = true;
    } else if (byte & FUNCTION) {
        is_wide = byte & 16;
        is_two = byte & 8;
    } else if (byte & SHIFT) {
        if (byte & 8) {
            move_text(!(byte & 4));
        } else {
            step(byte & 4);
        }
    } else if (byte & CONTROL) {
        control = byte & 7;
    } else if (byte & ENTRY) {
        entry = byte & 3;
    } else if (byte & HOME) {
        home();
    } else if (byte & CLEAR) {
        for (uint32_t place = 0; place < CELLS; place++) {
            text[place] = ' ';
        }
        home();
        entry |= 2;
    }
}

static void take(bool is_data, uint8_t byte) {
    if (!is_wide) {
        if (!has_half) {
            half = byte & 0xF0;
            has_half = true;
            return;
        }
        byte = half | byte >> 4;
        has_half = false;
    }
    if (is_data) {
        write(byte);
    } else {
        instruct(byte);
    }
    show();
}

static void on_e(void *user_data, pin_t pin, uint32_t value) {
    if (pin_read(rw)) {
        return;
    }
    uint8_t byte = 0;
    for (uint32_t bit = 0; bit < 8; bit++) {
        byte |= pin_read(data[bit]) << bit;
    }
    take(pin_read(rs), byte);
}

// The expander: bits 0, 1, 2 are RS, RW and E, bit 3 the light, bits 4 to 7 D4 to D7.
static bool on_byte(void *user_data, uint8_t byte) {
    if ((byte ^ port) & 8) {
        light = byte & 8;
        show();
    }
    if (port & 4 && !(byte & 4) && !(byte & 2)) {
        take(byte & 1, byte & 0xF0);
    }
    port = byte;
    return true;
}

void chip_init(void) {
    static const char *const names[8] = {"D0", "D1", "D2", "D3", "D4", "D5", "D6", "D7"};
    uint32_t height;
    display = framebuffer_init(&columns, &height);
    lines = height - 1;
    for (uint32_t place = 0; place < CELLS; place++) {
        text[place] = ' ';
    }
    uint32_t i2c = attr_read(attr_init("i2cAddress", 0));
    if (i2c) {
        const i2c_config_t bus = {.address = i2c, .scl = pin_init("SCL", INPUT), .sda = pin_init("SDA", INPUT_PULLUP), .write = on_byte};
        i2c_init(&bus);
    } else {
        light = true;
        for (uint32_t bit = 0; bit < 8; bit++) {
            data[bit] = pin_init(names[bit], INPUT);
        }
        rs = pin_init("RS", INPUT);
        rw = pin_init("RW", INPUT);
        e = pin_init("E", INPUT);
        const pin_watch_config_t falls = {.edge = FALLING, .pin_change = on_e};
        pin_watch(e, &falls);
    }
    show();
}
