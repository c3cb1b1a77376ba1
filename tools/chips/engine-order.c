// Engines that set one another to work. A byte at RX begins an exchange at SPI whose first byte it is; `done` begins the sending of
// what came in at TX, and with it, unless three bytes came, the next exchange; write_done ends that with spi_stop. A write
// at I2C of 0 begins an exchange, of 1 the sending of a byte, of 2 both, of 3 both and ends the exchange at once; TURN changes in
// each callback of an engine.
#include "wokwi-api.h"

static uint8_t bytes[3];
static uint8_t letter;
static uint32_t level;
static pin_t turn;
static uart_dev_t uart;
static spi_dev_t spi;

static void called(void) {
    level = !level;
    pin_write(turn, level);
}

static void on_byte(void *user_data, uint8_t byte) {
    (void)user_data;
    called();
    bytes[0] = byte;
    spi_start(spi, bytes, 3);
}

static void on_sent(void *user_data) {
    (void)user_data;
    called();
    spi_stop(spi);
}

static void on_done(void *user_data, uint8_t *buffer, uint32_t count) {
    (void)user_data;
    called();
    if (count) {
        uart_write(uart, buffer, count);
        if (count < 3) {
            spi_start(spi, buffer, 3);
        }
    }
}

static bool on_write(void *user_data, uint8_t data) {
    (void)user_data;
    called();
    letter = data + 'a';
    if (data != 1) {
        bytes[0] = letter;
        spi_start(spi, bytes, 2);
    }
    if (data >= 1) {
        uart_write(uart, &letter, 1);
    }
    if (data == 3) {
        spi_stop(spi);
    }
    return true;
}

static uint8_t on_read(void *user_data) {
    (void)user_data;
    called();
    spi_start(spi, bytes, 1);
    return bytes[0];
}

static void on_disconnect(void *user_data) {
    (void)user_data;
    called();
    spi_stop(spi);
}

void chip_init(void) {
    turn = pin_init("TURN", OUTPUT_LOW);
    const uart_config_t uart_config = {
        .rx = pin_init("RX", INPUT),
        .tx = pin_init("TX", INPUT),
        .baud_rate = 1000000,
        .rx_data = on_byte,
        .write_done = on_sent,
    };
    uart = uart_init(&uart_config);
    const spi_config_t spi_config = {
        .sck = pin_init("SCK", INPUT),
        .mosi = pin_init("MOSI", INPUT),
        .miso = pin_init("MISO", INPUT),
        .mode = attr_read(attr_init("mode", 0)),
        .done = on_done,
    };
    spi = spi_init(&spi_config);
    const i2c_config_t i2c_config = {
        .address = 0x30,
        .scl = pin_init("SCL", INPUT_PULLUP),
        .sda = pin_init("SDA", INPUT_PULLUP),
        .read = on_read,
        .write = on_write,
        .disconnect = on_disconnect,
    };
    i2c_init(&i2c_config);
}
