// A colour display of 240 x 320 pixels on SPI (ILI9341): bytes in mode 0 while CS is low, commands where D/C is low. It has the window
// (0x2A, 0x2B), the writing of pixels (0x2C, 0x3C) in 16 or 18 bits (0x3A), the order of rows, columns and colours (0x36), on and off
// (0x28, 0x29, 0x10, 0x11), inverse colours (0x20, 0x21) and the reset; it does not scroll and is not read. The display has a pixel for
// each, as the upright module shows it; it is black while it is off.
#include "wokwi-api.h"

enum { WIDTH = 240, HEIGHT = 320, ALL = WIDTH * HEIGHT };
enum { RESET = 0x01, SLEEP = 0x10, WAKE = 0x11, NORMAL = 0x20, INVERSE = 0x21, OFF = 0x28, ON = 0x29, COLUMNS = 0x2A, PAGES = 0x2B, WRITE = 0x2C, ORDER = 0x36, FORMAT = 0x3A, GO_ON = 0x3C };
enum { MY = 0x80, MX = 0x40, MV = 0x20, BGR = 0x08 }; // of ORDER

static spi_dev_t spi;
static buffer_t display;
static pin_t cs, data;
static uint8_t byte;
static uint8_t memory[4 * ALL]; // red, green, blue, 255, as they were written
static uint32_t command, place; // the parameter that comes next
static uint8_t parameters[4];
static uint32_t first_column, last_column, first_page, last_page, column, page;
static uint32_t order, bytes_of_pixel;
static uint8_t pixel[3];
static bool is_on, is_awake, is_inverse, is_busy;

static void show(uint32_t from, uint32_t count) {
    static uint8_t line[4 * WIDTH];
    for (uint32_t at = 0; at < count; at += 4) {
        for (uint32_t part = 0; part < 3; part++) {
            uint8_t level = memory[from + at + part];
            line[at + part] = !is_on || !is_awake ? 0 : is_inverse ? (uint8_t)~level : level;
        }
        line[at + 3] = 255;
    }
    buffer_write(display, from, line, count);
}

static void show_all(void) {
    for (uint32_t line = 0; line < HEIGHT; line++) {
        show(4 * WIDTH * line, 4 * WIDTH);
    }
}

static void reset(void) {
    first_column = first_page = column = page = 0;
    last_column = WIDTH - 1;
    last_page = HEIGHT - 1;
    order = 0;
    bytes_of_pixel = 3;
    command = 0;
    is_on = is_awake = is_inverse = false;
    show_all();
}

// Writes one pixel, and goes on to the next one of the window.
static void put(uint32_t red, uint32_t green, uint32_t blue) {
    uint32_t x = order & MV ? page : column, y = order & MV ? column : page;
    if (x < WIDTH && y < HEIGHT) {
        uint32_t at = 4 * ((order & MY ? HEIGHT - 1 - y : y) * WIDTH + (order & MX ? x : WIDTH - 1 - x));
        memory[at] = (uint8_t)(order & BGR ? red : blue);
        memory[at + 1] = (uint8_t)green;
        memory[at + 2] = (uint8_t)(order & BGR ? blue : red);
        show(at, 4);
    }
    if (column++ >= last_column) {
        column = first_column;
        page = page >= last_page ? first_page : page + 1;
    }
}

static void take_pixel_byte(void) {
    pixel[place++] = byte;
    if (place < bytes_of_pixel) {
        return;
    }
    place = 0;
    if (bytes_of_pixel == 3) {
        put(pixel[0] & 0xFC, pixel[1] & 0xFC, pixel[2] & 0xFC);
        return;
    }
    uint32_t red = pixel[0] >> 3, green = (uint32_t)(pixel[0] & 7) << 3 | pixel[1] >> 5, blue = pixel[1] & 31;
    put(red << 3 | red >> 2, green << 2 | green >> 4, blue << 3 | blue >> 2);
}

static void take_parameter(void) {
    if (place < sizeof parameters) {
        parameters[place++] = byte;
    }
    if (command == ORDER && place == 1) {
        order = byte;
    } else if (command == FORMAT && place == 1) {
        bytes_of_pixel = (byte & 7) == 5 ? 2 : 3;
    } else if (place == 4 && (command == COLUMNS || command == PAGES)) {
        uint32_t first = (uint32_t)parameters[0] << 8 | parameters[1], last = (uint32_t)parameters[2] << 8 | parameters[3];
        place++; // further ones do nothing
        if (command == COLUMNS) {
            first_column = first;
            last_column = last;
        } else {
            first_page = first;
            last_page = last;
        }
    }
}

static void take_command(void) {
    bool was_on = is_on, was_awake = is_awake, was_inverse = is_inverse;
    command = byte;
    place = 0;
    if (command == RESET) {
        reset();
        return;
    }
    if (command == WRITE) {
        column = first_column;
        page = first_page;
    }
    is_on = command == ON || (is_on && command != OFF);
    is_awake = command == WAKE || (is_awake && command != SLEEP);
    is_inverse = command == INVERSE || (is_inverse && command != NORMAL);
    if (is_on != was_on || is_awake != was_awake || is_inverse != was_inverse) {
        show_all();
    }
}

static void listen(void) {
    is_busy = true;
    spi_start(spi, &byte, 1);
}

static void on_byte(void *user_data, uint8_t *buffer, uint32_t count) {
    (void)user_data;
    (void)buffer;
    is_busy = false;
    if (count) {
        if (!pin_read(data)) {
            take_command();
        } else if (command == WRITE || command == GO_ON) {
            take_pixel_byte();
        } else {
            take_parameter();
        }
    }
    if (!pin_read(cs)) {
        listen();
    }
}

static void on_select(void *user_data, pin_t pin, uint32_t value) {
    (void)user_data;
    (void)pin;
    if (value) {
        spi_stop(spi);
    } else if (!is_busy) {
        listen();
    }
}

static void on_reset(void *user_data, pin_t pin, uint32_t value) {
    (void)user_data;
    (void)pin;
    (void)value;
    reset();
}

void chip_init(void) {
    uint32_t width, height;
    display = framebuffer_init(&width, &height);
    data = pin_init("D/C", INPUT);
    const spi_config_t config = {.sck = pin_init("SCK", INPUT), .mosi = pin_init("MOSI", INPUT), .miso = NO_PIN, .mode = 0, .done = on_byte};
    spi = spi_init(&config);
    cs = pin_init("CS", INPUT);
    const pin_watch_config_t selects = {.edge = BOTH, .pin_change = on_select};
    pin_watch(cs, &selects);
    const pin_watch_config_t resets = {.edge = FALLING, .pin_change = on_reset};
    pin_watch(pin_init("RST", INPUT), &resets);
    reset();
    listen();
}
