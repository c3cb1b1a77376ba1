// Calls each function of the header once.
#include "wokwi-api.h"

void chip_init(void) {
    pin_t pin = pin_init("A", INPUT_PULLUP);
    const pin_watch_config_t watch = {.edge = RISING};
    pin_watch(pin, &watch);
    pin_watch_stop(pin);
    pin_mode(pin, OUTPUT);
    pin_write(pin, !pin_read(pin));
    const timer_config_t config = {.user_data = 0};
    timer_t timer = timer_init(&config);
    timer_start(timer, attr_read(attr_init("micros", 1)), true);
    timer_start_ns(timer, get_sim_nanos(), false);
    timer_stop(timer);
    const uart_config_t uart = {.rx = NO_PIN, .tx = pin, .baud_rate = 9600};
    uint8_t bytes[1] = {0};
    uart_write(uart_init(&uart), bytes, 1);
    const spi_config_t spi = {.sck = pin, .mosi = pin, .miso = NO_PIN};
    spi_dev_t slave = spi_init(&spi);
    spi_start(slave, bytes, 1);
    spi_stop(slave);
    const i2c_config_t i2c = {.address = 8, .scl = pin, .sda = pin};
    i2c_init(&i2c);
    uint32_t width, height;
    buffer_t buffer = framebuffer_init(&width, &height);
    buffer_write(buffer, 0, bytes, 1);
    buffer_read(buffer, 0, bytes, 1);
}
