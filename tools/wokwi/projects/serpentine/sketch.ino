// A matrix of 8 by 4 pixels whose rows go to and fro: its first 12 pixels are red, then one is green.
#include <Arduino.h>

// A bit has 20 cycles, of which the wire is high for 5 (0) or 13 (1): 800 kHz.
static void send(const uint8_t *data, uint16_t count) {
  volatile uint8_t *port = &PORTD;
  const uint8_t high = *port | _BV(6), low = *port & ~_BV(6);
  noInterrupts();
  for (; count; count--) {
    uint8_t byte = *data++;
    for (uint8_t bit = 0; bit < 8; bit++) {
      if (byte & 0x80) {
        *port = high; __builtin_avr_delay_cycles(13 - 4); *port = low;
      } else {
        *port = high; __builtin_avr_delay_cycles(5 - 4); *port = low; __builtin_avr_delay_cycles(13 - 5);
      }
      __builtin_avr_delay_cycles(2);
      byte <<= 1;
    }
  }
  interrupts();
}

static uint8_t pixels[3 * 32];

void setup() {
  pinMode(6, OUTPUT);
  for (uint8_t i = 0; i < 12; i++) {
    pixels[3 * i + 1] = 200;
  }
  pixels[3 * 12] = 200;
  send(pixels, sizeof pixels);
}

void loop() {
}
