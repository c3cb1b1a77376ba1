// Twelve servos, each 15 degrees further than the one before it, and all 3 degrees further each 20 ms.
#include <Servo.h>

Servo servos[12];

void setup() {
  for (int k = 0; k < 12; k++) {
    servos[k].attach(k + 2);
  }
}

void loop() {
  static int at;
  for (int k = 0; k < 12; k++) {
    servos[k].write((at + 15 * k) % 181);
  }
  at += 3;
  delay(20);
}
