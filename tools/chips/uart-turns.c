// Takes three bytes at RX, then sends them back at TX. What the bytes are when each is sent: the second and third are inverted
// in the middle of the second one's frame, so that the third goes out inverted and the second as it came. DONE changes with
// each write_done, and once more behind a write of no bytes; BUSY changes where a write is refused.
#include "wokwi-api.h"

static uint8_t buffer[3];
static uint32_t came;
static uint32_t done_level;
static uint32_t busy_level;
static bool is_empty_sent;
static uint32_t baud;
static pin_t done;
static pin_t busy;
static uart_dev_t uart;
static timer_t timer;

static void on_byte(void *user_data, uint8_t byte) {
    (void)user_data;
    if (came < 3) {
        buffer[came++] = byte;
    }
    if (came == 3) {
        if (uart_write(uart, buffer, 3)) {
            timer_start_ns(timer, 15000000000ULL / attr_read(baud), false);
        }
        if (!uart_write(uart, buffer, 1)) {
            busy_level = !busy_level;
            pin_write(busy, busy_level);
        }
    }
}

static void on_time(void *user_data) {
    (void)user_data;
    buffer[1] ^= 0xFF;
    buffer[2] ^= 0xFF;
}

static void on_sent(void *user_data) {
    (void)user_data;
    done_level = !done_level;
    pin_write(done, done_level);
    if (is_empty_sent) {
        came = 0;
    } else {
        uart_write(uart, buffer, 0);
    }
    is_empty_sent = !is_empty_sent;
}

void chip_init(void) {
    baud = attr_init("baud", 115200);
    done = pin_init("DONE", OUTPUT_LOW);
    busy = pin_init("BUSY", OUTPUT_LOW);
    const timer_config_t timer_config = {.callback = on_time};
    timer = timer_init(&timer_config);
    const uart_config_t config = {
        .rx = pin_init("RX", INPUT),
        .tx = pin_init("TX", INPUT),
        .baud_rate = attr_read(baud),
        .rx_data = on_byte,
        .write_done = on_sent,
    };
    uart = uart_init(&config);
}
