// Answers each byte with its complement: at TX at once, at SPI with the next byte, at I2C when it is read.
#include "wokwi-api.h"

static uint8_t sent;
static uint8_t exchanged;
static uint8_t written;
static uart_dev_t uart;
static spi_dev_t spi;

static void on_byte(void *user_data, uint8_t byte) {
    (void)user_data;
    sent = ~byte;
    uart_write(uart, &sent, 1);
}

static void on_done(void *user_data, uint8_t *buffer, uint32_t count) {
    (void)user_data;
    (void)count;
    *buffer = ~*buffer;
    spi_start(spi, buffer, 1);
}

static bool on_write(void *user_data, uint8_t data) {
    (void)user_data;
    written = data;
    return true;
}

static uint8_t on_read(void *user_data) {
    (void)user_data;
    return ~written;
}

void chip_init(void) {
    const uart_config_t uart_config = {
        .rx = pin_init("RX", INPUT),
        .tx = pin_init("TX", INPUT),
        .baud_rate = 2000000,
        .rx_data = on_byte,
    };
    uart = uart_init(&uart_config);
    const spi_config_t spi_config = {
        .sck = pin_init("SCK", INPUT),
        .mosi = pin_init("MOSI", INPUT),
        .miso = pin_init("MISO", INPUT),
        .mode = 3,
        .done = on_done,
    };
    spi = spi_init(&spi_config);
    spi_start(spi, &exchanged, 1);
    const i2c_config_t i2c_config = {
        .address = 0x7F,
        .scl = pin_init("SCL", INPUT_PULLUP),
        .sda = pin_init("SDA", INPUT_PULLUP),
        .read = on_read,
        .write = on_write,
    };
    i2c_init(&i2c_config);
}
