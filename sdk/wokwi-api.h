// What a custom chip calls: the functions that the simulator gives to its module.
//
// The names and types are those that chips for Wokwi use. A chip of pins, watches, timers, whole-number attributes, UARTs, SPI
// and I2C slaves and a display compiles unchanged: `sdk/build.sh`, with --libc where it includes <stdio.h> and the like. How
// each function is imported (its name, its parameters and its result), and the offsets of the configurations, are the
// simulator's own: docs/CHIPS.md, "What a chip can call".
//
// Functions of Wokwi that are not here are declared at the end. A chip that calls one does not compile, and the compiler says
// what to call in its place.
#ifndef WOKWI_API_H
#define WOKWI_API_H

#include <stdbool.h>
#include <stdint.h>

#ifdef __cplusplus
extern "C" {
#endif

#define CHIP_IMPORT(name) __attribute__((import_module("env"), import_name(name)))
#define CHIP_EXPORT(name) __attribute__((export_name(name)))
#define CHIP_MISSING(text) __attribute__((unavailable(text)))

// The function that the chip has: called once, before cycle 0. The functions that end in `_init` are called in it alone.
CHIP_EXPORT("chipInit") void chip_init(void);

// ---- pins

// A pin by its position in the list of the chip's JSON file, from 0.
typedef int32_t pin_t;

#define NO_PIN ((pin_t)-1)

enum pin_value {
    LOW = 0,
    HIGH = 1,
};

enum pin_mode {
    INPUT = 0,
    OUTPUT = 1,
    INPUT_PULLUP = 2,
    INPUT_PULLDOWN = 3,
    ANALOG = 4,
    // an output that begins with this value
    OUTPUT_LOW = 16,
    OUTPUT_HIGH = 17,
};

enum edge {
    RISING = 1,
    FALLING = 2,
    BOTH = 3,
};

typedef struct {
    void *user_data;
    uint32_t edge;
    void (*pin_change)(void *user_data, pin_t pin, uint32_t value);
} pin_watch_config_t;

// The pin with a name in a mode; NO_PIN where the chip's JSON file has no such name.
CHIP_IMPORT("pinInit") pin_t pin_init(const char *name, uint32_t mode);
// In chip_init every pin reads 0: nothing is driven yet.
CHIP_IMPORT("pinRead") uint32_t pin_read(pin_t pin);
// A pin keeps its value in every mode, and drives it as an output.
CHIP_IMPORT("pinWrite") void pin_write(pin_t pin, uint32_t value);
CHIP_IMPORT("pinMode") void pin_mode(pin_t pin, uint32_t mode);
// Calls back in the cycle of each edge; a pin has one watch, and the later one counts. Before cycle 0 each pin reads 0, so a pin
// that a pull-up holds high has a rising edge in cycle 0.
CHIP_IMPORT("pinWatch") bool pin_watch(pin_t pin, const pin_watch_config_t *config);
CHIP_IMPORT("pinWatchStop") void pin_watch_stop(pin_t pin);

// ---- attributes: numbers that the diagram gives to a chip under `attrs`

CHIP_IMPORT("attrInit") uint32_t attr_init(const char *name, uint32_t default_value);
CHIP_IMPORT("attrRead") uint32_t attr_read(uint32_t attr);

// An attribute as a number of thousandths, from -2,147,483.648 to 2,147,483.647: of "23.5" in the diagram 23500, of "23" 23000.
// A whole number is read as it is. Any other is handed over by the tools (play, scenario, run-tests, tools/wokwi/lower.py), in
// thousandths and under the name with this ending; `run` alone gives the default for it. Takes two of the 64 attributes.
static inline uint32_t attr_init_thousandths(const char *name, int32_t default_value) {
    static const volatile char ending[] = ".thousandths";
    const uint32_t none = 0x80000000u;
    uint32_t whole = attr_init(name, none), length = 0;
    if (attr_read(whole) != none) {
        return whole | none;
    }
    char made[64];
    for (; name[length] != 0 && length < sizeof made - sizeof ending; length++) {
        made[length] = name[length];
    }
    for (uint32_t at = 0; at < sizeof ending; at++) {
        made[length + at] = ending[at];
    }
    return attr_init(made, (uint32_t)default_value);
}

static inline int32_t attr_read_thousandths(uint32_t attr) {
    int64_t value = (int32_t)attr_read(attr & 0x7FFFFFFFu);
    value = attr >> 31 ? value * 1000 : value;
    return value > INT32_MAX ? INT32_MAX : value < INT32_MIN ? INT32_MIN : (int32_t)value;
}

// ---- timers, at most 32

// The C library has a type of this name in <time.h> and <sys/types.h>. Where it came first, this one gets another name.
#ifdef __DEFINED_timer_t
#define timer_t chip_timer_t
#else
#define __DEFINED_timer_t
#endif
typedef uint32_t timer_t;

typedef struct {
    void *user_data;
    void (*callback)(void *user_data);
    uint32_t reserved[8];
} timer_config_t;

CHIP_IMPORT("timerInit") timer_t timer_init(const timer_config_t *config);
CHIP_IMPORT("timerStart") void timer_start(timer_t timer, uint32_t micros, bool repeat);
// A cycle is 62.5 ns, and a delay is rounded up to whole cycles, one at least.
CHIP_IMPORT("timerStartNanos") void timer_start_ns(timer_t timer, uint64_t nanos, bool repeat);
CHIP_IMPORT("timerStop") void timer_stop(timer_t timer);
// The time since cycle 0, rounded down.
CHIP_IMPORT("getSimNanos") uint64_t get_sim_nanos(void);

// ---- UARTs, at most 8: 8 data bits, no parity, one stop bit

typedef uint32_t uart_dev_t;

typedef struct {
    void *user_data;
    // NO_PIN where there is none
    pin_t rx;
    pin_t tx;
    uint32_t baud_rate;
    void (*rx_data)(void *user_data, uint8_t byte);
    void (*write_done)(void *user_data);
    uint32_t reserved[8];
} uart_config_t;

CHIP_IMPORT("uartInit") uart_dev_t uart_init(const uart_config_t *config);
// Sends from the next cycle on, and reads each byte when it is sent; false while bytes are sent.
CHIP_IMPORT("uartWrite") bool uart_write(uart_dev_t uart, uint8_t *buffer, uint32_t count);

// ---- SPI slaves, at most 8

typedef uint32_t spi_dev_t;

typedef struct {
    void *user_data;
    pin_t sck;
    pin_t mosi;
    pin_t miso;
    // 0 to 3
    uint32_t mode;
    void (*done)(void *user_data, uint8_t *buffer, uint32_t count);
    uint32_t reserved[8];
} spi_config_t;

CHIP_IMPORT("spiInit") spi_dev_t spi_init(const spi_config_t *config);
// Exchanges each byte of the buffer with one of the master; does nothing while bytes are exchanged.
CHIP_IMPORT("spiStart") void spi_start(spi_dev_t spi, uint8_t *buffer, uint32_t count);
// `done` comes in the next cycle, with the number of bytes that were exchanged whole.
CHIP_IMPORT("spiStop") void spi_stop(spi_dev_t spi);

// ---- I2C slaves, at most 8

typedef uint32_t i2c_dev_t;

typedef struct {
    void *user_data;
    // 1 to 127; a chip at address 0 is never called (in Wokwi it is called for every address)
    uint32_t address;
    pin_t scl;
    pin_t sda;
    // whether the chip is there, a byte for the master, whether a byte is taken, and the end
    bool (*connect)(void *user_data, uint32_t address, bool read);
    uint8_t (*read)(void *user_data);
    bool (*write)(void *user_data, uint8_t data);
    void (*disconnect)(void *user_data);
    uint32_t reserved[8];
} i2c_config_t;

CHIP_IMPORT("i2cInit") i2c_dev_t i2c_init(const i2c_config_t *config);

// ---- the display: 4 bytes for each pixel, row by row from the top, all 0 at first

typedef uint32_t buffer_t;

// Stores the size that the chip's JSON file gives under `display`, in pixels; (buffer_t)-1 where it gives none.
CHIP_IMPORT("framebufferInit") buffer_t framebuffer_init(uint32_t *width, uint32_t *height);
// Both copy nothing where a byte would be beyond the display's end.
CHIP_IMPORT("bufferWrite") void buffer_write(buffer_t buffer, uint32_t offset, const void *data, uint32_t count);
CHIP_IMPORT("bufferRead") void buffer_read(buffer_t buffer, uint32_t offset, void *data, uint32_t count);

// ---- what is not here

CHIP_MISSING("pins are low or high: use pin_read, or take the value from an attribute") float pin_adc_read(pin_t pin);
CHIP_MISSING("pins are low or high: use pin_write, or send the value by UART, SPI or I2C") float pin_dac_write(pin_t pin, float voltage);
CHIP_MISSING("attributes are whole numbers: use attr_init_thousandths") uint32_t attr_init_float(const char *name, float default_value);
CHIP_MISSING("attributes are whole numbers: use attr_read_thousandths, which gives 23500 for 23.5") float attr_read_float(uint32_t attr);
typedef uint32_t string_t;
CHIP_MISSING("attributes are whole numbers: give a text as numbers, as examples/chip-typist does") string_t attr_string_init(const char *name);
CHIP_MISSING("attributes are whole numbers: give a text as numbers, as examples/chip-typist does") uint32_t string_get_length(string_t text);
CHIP_MISSING("attributes are whole numbers: give a text as numbers, as examples/chip-typist does")
uint32_t string_read(string_t text, char *buffer, uint32_t size);
CHIP_MISSING("use timer_start_ns, which takes a whole number") void timer_start_ns_d(timer_t timer, double nanos, bool repeat);
CHIP_MISSING("use get_sim_nanos, which gives a whole number") double get_sim_nanos_d(void);

#ifdef __cplusplus
}
#endif

#endif
