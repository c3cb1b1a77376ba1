// A dot runs through three pixels, a ring of 12 and a matrix whose rows go to and fro, all on one wire at 400 kHz.
#include <Arduino.h>

// A bit has 40 cycles, of which the wire is high for 8 (0) or 19 (1): 400 kHz.
static void send(const uint8_t *data, uint16_t count) {
  volatile uint8_t *port = &PORTD;
  const uint8_t high = *port | _BV(6), low = *port & ~_BV(6);
  noInterrupts();
  for (; count; count--) {
    uint8_t byte = *data++;
    for (uint8_t bit = 0; bit < 8; bit++) {
      if (byte & 0x80) {
        *port = high; __builtin_avr_delay_cycles(19 - 4); *port = low;
      } else {
        *port = high; __builtin_avr_delay_cycles(8 - 4); *port = low; __builtin_avr_delay_cycles(19 - 8);
      }
      __builtin_avr_delay_cycles(14);
      byte <<= 1;
    }
  }
  interrupts();
}

const uint8_t COUNT = 3 + 12 + 16;
static uint8_t pixels[3 * COUNT];

void setup() {
  pinMode(6, OUTPUT);
}

void loop() {
  static uint8_t at;
  for (uint8_t i = 0; i < COUNT; i++) {
    pixels[3 * i] = 8;                       // green
    pixels[3 * i + 1] = i == at ? 255 : 0;   // red
    pixels[3 * i + 2] = 24;                  // blue
  }
  send(pixels, sizeof pixels);
  at = (at + 1) % COUNT;
  delay(1);
}
