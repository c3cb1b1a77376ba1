// A rainbow turns on a ring of 16 pixels, by one pixel every 10 ms.
#include <Arduino.h>

// A bit has 20 cycles, of which the wire is high for 5 (0) or 13 (1): 800 kHz.
static void send(const uint8_t *data, uint16_t count) {
  volatile uint8_t *port = &PORTD;
  const uint8_t high = *port | _BV(6), low = *port & ~_BV(6);
  noInterrupts();
  for (; count; count--) {
    uint8_t byte = *data++;
    for (uint8_t bit = 0; bit < 8; bit++) {
      if (byte & 0x80) {
        *port = high; __builtin_avr_delay_cycles(13 - 4); *port = low;
      } else {
        *port = high; __builtin_avr_delay_cycles(5 - 4); *port = low; __builtin_avr_delay_cycles(13 - 5);
      }
      __builtin_avr_delay_cycles(2);
      byte <<= 1;
    }
  }
  interrupts();
}

static uint8_t pixels[3 * 16];

static void paint(uint8_t turn) {
  for (uint8_t i = 0; i < 16; i++) {
    uint8_t hue = 16 * (i + turn), part = hue % 85 * 3;
    uint8_t *pixel = pixels + 3 * i;  // green, red, blue
    pixel[0] = hue < 85 ? part : hue < 170 ? 255 - part : 0;
    pixel[1] = hue < 85 ? 255 - part : hue < 170 ? 0 : part;
    pixel[2] = hue < 85 ? 0 : hue < 170 ? part : 255 - part;
  }
}

void setup() {
  pinMode(6, OUTPUT);
}

void loop() {
  static uint8_t turn;
  paint(turn++);
  send(pixels, sizeof pixels);
  delay(10);
}
