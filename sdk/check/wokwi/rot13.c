// A chip as one writes it for Wokwi: it answers each byte of its UART with the letter 13 places further, and prints both and
// the time. The byte that it sends is a local variable: one alone is read in the next cycle, before another call.
#include "wokwi-api.h"
#include <stdio.h>
#include <stdlib.h>
#include <string.h>

typedef struct {
  uart_dev_t uart;
  timer_t timer;
  uint32_t sent;
} chip_state_t;

static void on_rx_data(void *user_data, uint8_t byte);
static void on_write_done(void *user_data);
static void on_timer(void *user_data);

void chip_init(void) {
  setvbuf(stdout, NULL, _IOLBF, 1024);
  chip_state_t *chip = malloc(sizeof(chip_state_t));
  memset(chip, 0, sizeof *chip);

  const uart_config_t uart = {
    .tx = pin_init("TX", INPUT_PULLUP),
    .rx = pin_init("RX", INPUT),
    .baud_rate = 115200,
    .rx_data = on_rx_data,
    .write_done = on_write_done,
    .user_data = chip,
  };
  chip->uart = uart_init(&uart);

  const timer_config_t timer = {.callback = on_timer, .user_data = chip};
  chip->timer = timer_init(&timer);
  timer_start_ns(chip->timer, 1000000, true);
  printf("The UART is ready\n");
}

static uint8_t rot13(uint8_t value) {
  uint8_t first = value & 0x20 ? 'a' : 'A';
  if (value < first || value > first + 25) {
    return value;
  }
  return first + (value - first + 13) % 26;
}

static void on_rx_data(void *user_data, uint8_t byte) {
  chip_state_t *chip = user_data;
  printf("in: %d\n", byte);
  uint8_t answer = rot13(byte);
  uart_write(chip->uart, &answer, sizeof answer);
}

static void on_write_done(void *user_data) {
  chip_state_t *chip = user_data;
  chip->sent++;
  printf("out: %u bytes by now\n", (unsigned)chip->sent);
}

static void on_timer(void *user_data) {
  printf("%llu ns\n", get_sim_nanos());
}
