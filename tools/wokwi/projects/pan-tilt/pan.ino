#include <Servo.h>
Servo pan, tilt;
void setup() {
  pan.attach(9);
  tilt.attach(10);
  pinMode(2, INPUT_PULLUP);
}
void loop() {
  pan.write(map(analogRead(A0), 0, 1023, 0, 180));
  tilt.write(digitalRead(2) ? map(analogRead(A1), 0, 1023, 0, 180) : 90);
  delay(15);
}
