// A servo goes to 0, 90 and 180 degrees, and stays at each for two pulses. The LED is wired through the analyzer's pin.
#include <Servo.h>

Servo servo;

void setup() {
  servo.write(0);
  servo.attach(9);
  for (int angle = 0; angle <= 180; angle += 90) {
    servo.write(angle);
    delay(40);
  }
}

void loop() {
}
